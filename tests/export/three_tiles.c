/*
 * Plans a job through include/layerplan.h and compares: three_tiles JOB PLAN, where JOB is examples/three-tiles.job and
 * PLAN the printed plan that it must give. Every buffer has a few elements more than the job needs, and all are filled
 * before each call, so that what must stay unchanged is seen to.
 */
#include "layerplan.h"

#include <stdio.h>
#include <stdlib.h>
#include <string.h>

/* Both structs as the library has them: each field with its size and its offset, and nothing behind the last. */
#define FIELD(type, field, size, offset) \
    _Static_assert(sizeof((type){0}.field) == (size) && offsetof(type, field) == (offset), #type "." #field)

FIELD(layerplan_result, number, 8, 0);
FIELD(layerplan_result, line, 8, 8);
FIELD(layerplan_result, vias, 8, 16);
FIELD(layerplan_result, total, 8, 24);
FIELD(layerplan_result, maximum, 8, 32);
FIELD(layerplan_result, length, 8, 40);
_Static_assert(sizeof(layerplan_result) == 48 && _Alignof(layerplan_result) == 8, "layerplan_result");

FIELD(layerplan_entry, net, 4, 0);
FIELD(layerplan_entry, low, 4, 4);
FIELD(layerplan_entry, score, 8, 8);
_Static_assert(sizeof(layerplan_entry) == 16 && _Alignof(layerplan_entry) == 8, "layerplan_entry");

/* Both calls with their types. */
_Static_assert(_Generic(&layerplan_plan,
                        layerplan_result (*)(const uint8_t *, size_t, uint32_t *, size_t, layerplan_entry *, size_t,
                                             uint8_t *, size_t): 1,
                        default: 0), "layerplan_plan");
_Static_assert(_Generic(&layerplan_print,
                        layerplan_result (*)(const uint8_t *, size_t, uint32_t *, size_t, layerplan_entry *, size_t,
                                             uint8_t *, size_t, uint8_t *, size_t): 1,
                        default: 0), "layerplan_print");

enum {
    WIDTH = 3, HEIGHT = 1, LAYERS = 2, NETS = 2, ENTRIES = 3,
    MORE = 5,      /* elements beyond what is needed */
    FILLED = 0xa5, /* each byte of each buffer before a call */
    TEXT = 4096
};

#define WORK LAYERPLAN_WORK(WIDTH, HEIGHT, LAYERS)
#define PRINT LAYERPLAN_PRINT(NETS, ENTRIES)

static uint32_t work[WORK + MORE];
static layerplan_entry order[NETS + MORE];
static uint8_t answer[ENTRIES + MORE], print[PRINT + MORE];

static void expect(int holds, const char *what)
{
    if (!holds) {
        fprintf(stderr, "three_tiles: %s\n", what);
        exit(1);
    }
}

static size_t load(const char *name, uint8_t *text)
{
    FILE *file = fopen(name, "rb");
    expect(file != NULL, name);
    size_t length = fread(text, 1, TEXT, file);
    expect(length < TEXT && !ferror(file), name);
    fclose(file);
    return length;
}

static void fill(void)
{
    memset(work, FILLED, sizeof work);
    memset(order, FILLED, sizeof order);
    memset(answer, FILLED, sizeof answer);
    memset(print, FILLED, sizeof print);
}

/* Whether all bytes from `from` to the end of a buffer are this one. */
static int all(const void *buffer, size_t from, size_t end, uint8_t byte)
{
    const uint8_t *bytes = buffer;
    while (from < end && bytes[from] == byte)
        from++;
    return from == end;
}

static int same(layerplan_result r, uint64_t number, uint64_t line, uint64_t vias, uint64_t total, uint64_t maximum,
                uint64_t length)
{
    return r.number == number && r.line == line && r.vias == vias && r.total == total && r.maximum == maximum
        && r.length == length;
}

/*
 * The order list and the answer list of the job, where its first net wants this layer and up, and that nothing else was
 * written.
 */
static void expect_plan(uint32_t low)
{
    expect(all(work, 0, sizeof work, 0), "working numbers after a plan");
    expect(order[0].net == 2 && order[1].net == 1, "net numbers of the order list");
    expect(order[0].low == 1 && order[1].low == low, "lowest wanted layers of the order list");
    expect(order[0].score == 3000 && order[1].score == 2500, "scores of the order list");
    expect(answer[0] == 2 && answer[1] == 1 && answer[2] == 1, "answer list");
    expect(all(order, NETS * sizeof *order, sizeof order, FILLED), "entries beyond the order list");
    expect(all(answer, ENTRIES, sizeof answer, FILLED), "bytes beyond the answer list");
}

/* Nothing but the working numbers was written. */
static void expect_refusal(void)
{
    expect(all(work, 0, sizeof work, 0), "working numbers after a refusal");
    expect(all(order, 0, sizeof order, FILLED), "order list after a refusal");
    expect(all(answer, 0, sizeof answer, FILLED), "answer list after a refusal");
    expect(all(print, 0, sizeof print, FILLED), "print buffer after a refusal");
}

/* Writes the job with the line `low=2` behind `net=1`. Returns its length. */
static size_t put_low(uint8_t *marked, const uint8_t *job, size_t length)
{
    size_t at = 0;
    while (at + 6 <= length && memcmp(job + at, "net=1\n", 6) != 0)
        at++;
    expect(at + 6 <= length, "the line `net=1` of the job");
    memcpy(marked, job, at + 6);
    memcpy(marked + at + 6, "low=2\n", 6);
    memcpy(marked + at + 12, job + at + 6, length - at - 6);
    return length + 6;
}

int main(int count, char **names)
{
    static uint8_t job[TEXT], plan[TEXT];
    expect(count == 3, "usage: three_tiles JOB PLAN");
    size_t job_length = load(names[1], job), plan_length = load(names[2], plan);
    layerplan_result r;

    /* the lengths of the header's formulas, written out */
    expect(WORK == 108 && PRINT == 390, "lengths needed");
    expect(LAYERPLAN_WORK_MOST == 276224 && LAYERPLAN_PRINT_MOST == 611924, "lengths for every job");

    /* each call with exactly what is needed, and with more */
    for (size_t more = 0; more <= MORE; more += MORE) {
        fill();
        r = layerplan_plan(job, job_length, work, WORK + more, order, NETS + more,
                           answer, ENTRIES + more);
        expect(same(r, 0, 0, 2, 0, 0, 0), "numbers of layerplan_plan");
        memset(work + WORK + more, 0, (MORE - more) * sizeof *work); /* not lent */
        expect_plan(1);
        expect(all(print, 0, sizeof print, FILLED), "print buffer after layerplan_plan");

        fill();
        r = layerplan_print(job, job_length, work, WORK + more, order, NETS + more,
                            answer, ENTRIES + more, print, PRINT + more);
        expect(same(r, 0, 0, 2, 0, 0, plan_length), "numbers of layerplan_print");
        memset(work + WORK + more, 0, (MORE - more) * sizeof *work);
        expect_plan(1);
        expect(memcmp(print, plan, plan_length) == 0, "printed text");
        expect(all(print, plan_length, sizeof print, FILLED), "bytes beyond the printed text");
    }

    /* with a `low` line for the first net: the same plan, the layer in its entry, and one line more in the print */
    static uint8_t marked[TEXT + 6];
    size_t marked_length = put_low(marked, job, job_length);
    fill();
    r = layerplan_plan(marked, marked_length, work, WORK + MORE, order, NETS + MORE, answer, ENTRIES + MORE);
    expect(same(r, 0, 0, 2, 0, 0, 0), "numbers of layerplan_plan with a `low` line");
    expect_plan(2);
    fill();
    r = layerplan_print(marked, marked_length, work, WORK + MORE, order, NETS + MORE,
                        answer, ENTRIES + MORE, print, PRINT + MORE);
    expect(same(r, 0, 0, 2, 0, 0, plan_length + 7), "numbers of layerplan_print with a `low` line");
    expect_plan(2);
    expect(memcmp(print, plan, plan_length) == 0, "printed text with a `low` line");
    expect(memcmp(print + plan_length, "ldof=0\n", 7) == 0, "last line of the printed text");
    expect(all(print, plan_length + 7, sizeof print, FILLED), "bytes beyond the last line");

    /* a square, its four edges a ring, with pins in two tiles: the edge that closes it is dropped, and one that then hangs
       loose; with pins in one tile, all are */
    static const char square[] = "width=2\nheight=2\nlayers=2\nalpha=1\nbeta=1\ngamma=0\neast=1,1\nnorth=1,1\n"
                                 "east=1,1\nnorth=1,1\nnets=1\nnet=1\npins=0,0,1;1,1,1\nedges=0,0,e;1,0,n;0,1,e;0,0,n\n";
    static uint32_t square_work[LAYERPLAN_WORK(2, 2, 2)];
    static uint8_t ring[sizeof square];
    for (size_t pins = 1; pins <= 2; pins++) {
        memcpy(ring, square, sizeof square);
        if (pins == 1)
            memcpy(strstr((char *)ring, ";1,1,1"), ";0,0,2", 6);
        fill();
        r = layerplan_plan(ring, sizeof square - 1, square_work, LAYERPLAN_WORK(2, 2, 2), order, 1, answer, 4);
        expect(same(r, 0, 0, pins == 1, 0, 0, 0), "numbers of a ring");
        uint8_t kept = pins == 1 ? 0 : 1;
        expect(answer[0] == kept && answer[1] == kept && answer[2] == 0 && answer[3] == 0, "answer list of a ring");
    }

    /* no text, and buffers without elements: their pointers are not null */
    fill();
    r = layerplan_print(job, 0, work, WORK + MORE, order, 0, answer, 0, print, 0);
    expect(same(r, 2, 1, 0, 0, 0, 0), "an empty text");
    expect_refusal();

    /* one of each too short */
    const struct { size_t work, order, answer, print; uint64_t number, line; } lent[] = {
        {0, NETS, ENTRIES, PRINT, 9, 3},
        {WORK - 1, NETS, ENTRIES, PRINT, 9, 3},
        {WORK, NETS - 1, ENTRIES, PRINT, 10, 11},
        {WORK, NETS, ENTRIES - 1, PRINT, 11, 17},
        {WORK, NETS, ENTRIES, PRINT - 1, 11, 17},
    };
    for (size_t i = 0; i < sizeof lent / sizeof *lent; i++) {
        fill();
        r = layerplan_print(job, job_length, work, lent[i].work, order, lent[i].order,
                            answer, lent[i].answer, print, lent[i].print);
        expect(same(r, lent[i].number, lent[i].line, 0, 0, 0, 0), "a buffer too short");
        expect(all(work, lent[i].work * sizeof *work, sizeof work, FILLED), "working numbers that were not lent");
        memset(work + lent[i].work, 0, sizeof work - lent[i].work * sizeof *work);
        expect_refusal();
    }

    puts("three_tiles: both calls give the plan through include/layerplan.h");
    return 0;
}
