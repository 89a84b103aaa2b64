/*
 * A call of Plan that is watched from outside: what the library is about to write into the answer list is told before
 * it is written, so that the working numbers can be read at that moment. Nothing in the library is changed for this.
 *
 * The answer list stands on pages that may not be written. A write there stops the call by a signal; the watcher is
 * told the place, the pages are opened for that one instruction (the processor's trap flag stops the call again after
 * it), and shut again. x86-64 Linux, as the library itself. One call at a time.
 */
#define _GNU_SOURCE
#include "layerplan.h"

#include <signal.h>
#include <stdio.h>
#include <string.h>
#include <sys/mman.h>
#include <ucontext.h>
#include <unistd.h>

#define TRAP_FLAG 0x100

typedef void watcher(void *data, size_t place);

static struct {
    uint8_t *pages;
    size_t length, size; /* of the answer list, and of its pages */
    watcher *tell;
    void *data;
    struct sigaction on_write, on_trap; /* as they were before */
} watched;

static void before_write(int number, siginfo_t *info, void *context)
{
    uint8_t *at = info->si_addr;
    (void)number;
    if (at < watched.pages || at >= watched.pages + watched.length) {
        sigaction(SIGSEGV, &watched.on_write, NULL); /* not ours: the same fault comes again */
        return;
    }
    watched.tell(watched.data, (size_t)(at - watched.pages));
    mprotect(watched.pages, watched.size, PROT_READ | PROT_WRITE);
    ((ucontext_t *)context)->uc_mcontext.gregs[REG_EFL] |= TRAP_FLAG;
}

static void after_write(int number, siginfo_t *info, void *context)
{
    (void)number, (void)info;
    mprotect(watched.pages, watched.size, PROT_READ);
    ((ucontext_t *)context)->uc_mcontext.gregs[REG_EFL] &= ~(greg_t)TRAP_FLAG;
}

/* Calls layerplan_plan and tells each write into the answer list. Returns 0 where the system gave what that takes. */
int watched_plan(const uint8_t *text, size_t text_length, uint32_t *work, size_t work_length,
                 layerplan_entry *order, size_t order_length,
                 uint8_t *answer, size_t answer_length, watcher *tell, void *data, layerplan_result *result)
{
    size_t page = (size_t)sysconf(_SC_PAGESIZE);
    size_t size = (answer_length / page + 1) * page;
    uint8_t *pages = mmap(NULL, size, PROT_READ | PROT_WRITE, MAP_PRIVATE | MAP_ANONYMOUS, -1, 0);
    if (pages == MAP_FAILED)
        return 1;
    memcpy(pages, answer, answer_length);
    watched.pages = pages;
    watched.length = answer_length;
    watched.size = size;
    watched.tell = tell;
    watched.data = data;

    struct sigaction action;
    memset(&action, 0, sizeof action);
    sigemptyset(&action.sa_mask);
    action.sa_flags = SA_SIGINFO;
    action.sa_sigaction = before_write;
    if (sigaction(SIGSEGV, &action, &watched.on_write))
        return 1;
    action.sa_sigaction = after_write;
    if (sigaction(SIGTRAP, &action, &watched.on_trap) || mprotect(pages, size, PROT_READ))
        return 1;
    *result = layerplan_plan(text, text_length, work, work_length, order, order_length,
                             pages, answer_length);
    if (sigaction(SIGSEGV, &watched.on_write, NULL) || sigaction(SIGTRAP, &watched.on_trap, NULL))
        return 1;
    memcpy(answer, pages, answer_length);
    return munmap(pages, size);
}

/* ---- a call that crashes: the seed of its job is told */

static char last_words[64];
static int last_length;

static void crashed(int number)
{
    /* the signal's own action, to end the program, follows at once: SA_RESETHAND */
    if (write(STDOUT_FILENO, last_words, (size_t)last_length) == last_length)
        raise(number);
}

/* From now on a crash tells this seed. */
void tell_seed(uint64_t seed)
{
    last_length = snprintf(last_words, sizeof last_words, "CRASHED seed %llu\n", (unsigned long long)seed);
}

/* Where a crash is to be told. Returns 0 where the system took it. */
int tell_crashes(void)
{
    const int numbers[] = {SIGSEGV, SIGBUS, SIGILL, SIGFPE, SIGABRT};
    struct sigaction action;
    memset(&action, 0, sizeof action);
    sigemptyset(&action.sa_mask);
    action.sa_flags = SA_RESETHAND;
    action.sa_handler = crashed;
    for (size_t i = 0; i < sizeof numbers / sizeof *numbers; i++)
        if (sigaction(numbers[i], &action, NULL))
            return 1;
    return 0;
}
