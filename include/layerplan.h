/*
 * Layer planner for flat wiring plans: the two calls of the static library liblayerplan_c.a.
 *
 * `tests/export/library` proves the library and writes target/staticlib/liblayerplan_c.a (x86-64 Linux). A program
 * includes this header and links that one archive:
 *
 *     gcc -Iinclude program.c target/staticlib/liblayerplan_c.a
 *
 * Both functions are proved: for every text and all lengths, what a call returns and what it leaves in each buffer is
 * what the definitions in crates/model/specs say (contracts: crates/layerplan_c/src/lib.rt). They use no heap and no
 * global state, so calls with different buffers may run at the same time in different threads, and of the C library
 * only memset. The proof does not bound the stack: as compiled, a call takes about 100 KB of it, whatever the job.
 *
 * What a caller owes, for the proof says nothing of a call that breaks it:
 *
 * - Each pointer points to as many elements as the length after it says, and is aligned as C aligns its type. A length
 *   counts elements, not bytes.
 * - No pointer is null, also where the length is 0: there, pass the address of any object of the type. Nothing is read
 *   or written through it.
 * - The buffers that are written (work, order, answer, print) overlap neither each other nor the text.
 * - Nobody else writes the text, or reads or writes the buffers, before the call returns.
 *
 * Nothing is owed beyond that: any bytes may stand in the text and in the buffers, and any length may be too short. A
 * length that is too short for the job is a refusal (9, 10 or 11), not an error of the caller.
 */
#ifndef LAYERPLAN_H
#define LAYERPLAN_H

#include <stddef.h>
#include <stdint.h>

#ifdef __cplusplus
extern "C" {
#endif

/*
 * What a call returns. An accepted job: number 0, line 0 and the figures of the plan. A refused one: number and line of
 * its one refusal, and zeros.
 *
 *   number   line             when
 *   0        0                the job is accepted
 *   1        0                text above 1,048,576 bytes
 *   2        the line         wrong key, form or list length, missing line, text after the last line
 *   3        the line         a number outside its range, an edge leaving the grid
 *   4        the line         net number out of turn
 *   5        the line         same tile and layer twice on `pins`
 *   6        the line         same edge twice on `edges`
 *   8        `edges` line     a pin or edge not reached from the first pin's tile along the edges
 *   9        3 or 4           fewer working numbers than needed; 4 where line 4 begins `dirs=`
 *   10       `nets` line      fewer order entries than nets
 *   11       the last line    answer list or print buffer too short
 *   12       the line         a nonzero capacity on a layer that runs the other way
 *   13       `edges` line     an edge whose direction has no layer
 *
 * Number 7 no longer occurs: rings are cut (see layerplan_plan). 8 and 13 are judged before cutting.
 *
 * Lines count from 1; a missing line has the number that it would have had. The first line with a fault decides, and on
 * one line the lower number; but 13 wins over 11, which is found after the whole text.
 */
typedef struct layerplan_result {
    uint64_t number;  /* of the refusal, 0 where the job is accepted */
    uint64_t line;    /* of the refusal, 0 where the job is accepted */
    uint64_t vias;    /* the vias of all nets of the plan together */
    uint64_t total;   /* the overflow of all layers of all edges, summed */
    uint64_t maximum; /* the largest overflow of a layer of an edge */
    uint64_t length;  /* layerplan_print: the bytes of the printed text; layerplan_plan: 0 */
} layerplan_result;

/*
 * An entry of the order list: the number of a net, from 1; the lowest layer that its timing wants, 1 to K, which is the
 * number on its `low` line and 1 without the line; and its score, in which pins on several layers of a tile count once.
 * An entry has 16 bytes, without any between its fields.
 */
typedef struct layerplan_entry {
    uint32_t net;
    uint32_t low;
    uint64_t score;
} layerplan_entry;

/*
 * The lengths that a job needs: W and H are its width and height, 1 to 64, K its layers, 2 to 8, N its nets, at most
 * 4,096, and A the number of entries on all its `edges` lines, those of dropped edges included, at most a sixth of the
 * length of its text. Longer buffers are fine.
 */

/* Working numbers: 2 x K x E + 2 x E + 32 x T, where T = W x H tiles and E = (W - 1) x H + W x (H - 1) edges. */
#define LAYERPLAN_EDGES(W, H) (((size_t)(W) - 1) * (size_t)(H) + (size_t)(W) * ((size_t)(H) - 1))
#define LAYERPLAN_WORK(W, H, K) \
    (2 * (size_t)(K) * LAYERPLAN_EDGES(W, H) + 2 * LAYERPLAN_EDGES(W, H) + 32 * (size_t)(W) * (size_t)(H))

/* Entries of the order list: N. */
#define LAYERPLAN_ORDER(N) ((size_t)(N))

/* Bytes of the answer list: A. */
#define LAYERPLAN_ANSWER(A) ((size_t)(A))

/* Bytes of the print buffer: 256 + 64 x N + 2 x A, even where the printed text is shorter. */
#define LAYERPLAN_PRINT(N, A) (256 + 64 * (size_t)(N) + 2 * (size_t)(A))

/* Lengths that are enough for every job: of text, and of the buffers for any text of at most this length. */
#define LAYERPLAN_TEXT_MOST ((size_t)1048576)
#define LAYERPLAN_WORK_MOST LAYERPLAN_WORK(64, 64, 8)
#define LAYERPLAN_ORDER_MOST LAYERPLAN_ORDER(4096)
#define LAYERPLAN_ANSWER_MOST LAYERPLAN_ANSWER(LAYERPLAN_TEXT_MOST / 6)
#define LAYERPLAN_PRINT_MOST LAYERPLAN_PRINT(4096, LAYERPLAN_TEXT_MOST / 6)

/*
 * Plan: reads the job text and finds the layer of every edge of every net.
 *
 *   text     the job text; only read. Capacities run from 0 to 65,535. Right after `layers` it may have the line `dirs`,
 *            a letter for each layer with commas between: edges to the east then use only layers with `h`, edges to the
 *            north only layers with `v`. Right after `net` each net may have the line `low`, the lowest layer that its
 *            timing wants, 1 to K; layers, scores and order are the same with it and without
 *   work     working numbers. What they held is of no account. After every call, refused or not, all work_length of
 *            them are 0
 *   order    the order list: the nets with their lowest wanted layers and their scores, in placing order
 *   answer   the layers, 1 to K, and 0 for a dropped edge; nets in job order, each net's layers in the order of its
 *            `edges` line
 *
 * The edges of a net may contain rings; they are cut. Going along the `edges` line, an edge that closes a ring with kept
 * earlier ones is dropped. In a net that lost an edge so, a tile with one kept edge and no pin then loses that edge, until
 * none is left to lose. Every pin stays joined. Demand, overflow, scores, vias and `ldof` are those of the kept edges.
 *
 * An accepted job fills the first N entries of order and the first A bytes of answer; what lies beyond stays as it was.
 * A refused job leaves order and answer as they were.
 */
layerplan_result layerplan_plan(const uint8_t *text, size_t text_length,
                                uint32_t *work, size_t work_length,
                                layerplan_entry *order, size_t order_length,
                                uint8_t *answer, size_t answer_length);

/*
 * Print: does the same, and writes the plan as a text.
 *
 *   print    the printed text fills its first `length` bytes; there is no zero byte behind it. What lies beyond stays as
 *            it was. A refused job leaves it as it was. In a job that has a `low` line the text ends with the line
 *            `ldof=N`: summed over all edges, the fewest nets with `low` above 1 that must go without a track on a layer
 *            that they want, over all ways to hand out the tracks of the edge, whatever the plan
 */
layerplan_result layerplan_print(const uint8_t *text, size_t text_length,
                                 uint32_t *work, size_t work_length,
                                 layerplan_entry *order, size_t order_length,
                                 uint8_t *answer, size_t answer_length,
                                 uint8_t *print, size_t print_length);

#ifdef __cplusplus
}
#endif

#endif
