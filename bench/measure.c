// The stack that a tick needs, and how many instructions some prepared ticks take. (bench/count counts whole flights.)
#define _GNU_SOURCE
#include <signal.h>
#include <stdbool.h>
#include <stdio.h>
#include <stdlib.h>
#include <string.h>
#include <sys/mman.h>
#include <sys/ptrace.h>
#include <sys/wait.h>
#include <ucontext.h>
#include <unistd.h>

#include "flights.h"

enum { STACK = 1 << 18, PAINT = 0xa5, FLOWN = 100 };

// What a board may count on: bytes of stack, instructions of a tick, and of one that is refused for its memory.
enum { STACK_MOST = 6000, TICK_MOST = 7000, REFUSAL_MOST = 15000 };

// Ticks of prepared satellites: whether a rule is commanded too, and whether the last word is at fault.
static const struct {
    const char *name;
    void (*satellite)(Memory *m);
    bool commanded, at_fault;
} prepared[] = {
    {"quiet tick", busy, false, false},
    {"16 rules act", about_to_act, false, false},
    {"32 activities due", about_to_release, false, false},
    {"1 of 32 due", about_to_release_one, false, false},
    {"16 rules, 32 due, a command", about_to_do_all, true, false},
    {"16 rules, 1 of 32 due, a command", about_to_act_and_release_one, true, false},
    {"last word at fault", busy, false, true},
};

enum { PREPARED = sizeof prepared / sizeof prepared[0], TICKS = PREPARED + FLOWN };

// Tick n of the mix: the prepared ones, and then a random flight.
static void set_up(int n, Lent *lent) {
    if (n < PREPARED) {
        prepare(lent, prepared[n].satellite);
        if (prepared[n].commanded) {
            uint64_t frame[FRAME] = {0, 5, 3, 2, 10, 1, 3, 0, 20, 7};
            memcpy(lent->frame, frame, sizeof frame);
            close_frame(lent->frame);
        }
        if (prepared[n].at_fault)
            for (int copy = 0; copy < COPIES; copy++) lent->memory[copy * WORDS + WORDS - 1] = ~0ull;
    } else {
        if (n == PREPARED) board_launch(lent->memory, NUMBERS);
        for (int i = 0; i < READINGS; i++) lent->readings[i] = (uint16_t)any(64);
        any_frame(lent);
        if (!any(4)) lent->memory[any(NUMBERS)] = any(70); // in one copy, so that it is voted away
    }
}

// ---- the stack: paint it, tick on it, and see how far down the paint is gone

static ucontext_t here, there;
static Tick *ticks_there;
static Lent lent_there;

static void run_there(void) {
    tick(ticks_there, &lent_there);
}

static uint64_t nothing(uint64_t *m, size_t ml, const uint16_t *r, size_t rl, const uint64_t *f, size_t fl, uint64_t *t, size_t tl) {
    (void)m, (void)ml, (void)r, (void)rl, (void)f, (void)fl, (void)t, (void)tl;
    return 0;
}

static size_t stack_of(Tick *by) {
    static unsigned char stack[STACK];
    memset(stack, PAINT, sizeof stack);
    getcontext(&there);
    there.uc_stack.ss_sp = stack;
    there.uc_stack.ss_size = sizeof stack;
    there.uc_link = &here;
    makecontext(&there, run_there, 0);
    ticks_there = by;
    swapcontext(&here, &there);
    size_t untouched = 0;
    while (untouched < STACK && stack[untouched] == PAINT) untouched++;
    return STACK - untouched;
}

static size_t most_stack(Tick *by) {
    size_t most = 0;
    size_t empty = stack_of(nothing);
    for (int n = 0; n < TICKS; n++) {
        set_up(n, &lent_there);
        size_t needed = stack_of(by) - empty;
        if (needed > most) most = needed;
    }
    return most;
}

// ---- instructions: a child ticks, and its parent steps through it, one instruction at a time

static volatile int *inside;

static void child(Tick *by) {
    static Lent lent;
    ptrace(PTRACE_TRACEME, 0, NULL, NULL);
    for (int n = 0; n < PREPARED; n++) {
        set_up(n, &lent);
        *inside = 1;
        raise(SIGTRAP);
        tick(by, &lent);
        *inside = 0;
    }
    _exit(0);
}

// Fills in the instructions of each prepared tick, with those of the call and the loop around it.
static void count_steps(Tick *by, long *steps) {
    int status;
    inside = mmap(NULL, sizeof *inside, PROT_READ | PROT_WRITE, MAP_SHARED | MAP_ANONYMOUS, -1, 0);
    pid_t pid = fork();
    if (pid == 0) child(by);
    for (int n = 0; n < PREPARED; n++) {
        if (n > 0) ptrace(PTRACE_CONT, pid, NULL, NULL);
        waitpid(pid, &status, 0);
        for (steps[n] = 0; *inside; steps[n]++) {
            ptrace(PTRACE_SINGLESTEP, pid, NULL, NULL);
            waitpid(pid, &status, 0);
        }
    }
    ptrace(PTRACE_CONT, pid, NULL, NULL);
    waitpid(pid, &status, 0);
}

// Whether a tick of the proved library keeps within what is promised for it.
static bool within(const char *what, long needed, long most) {
    if (needed > most) printf("over budget: %s: %ld, where at most %ld may be\n", what, needed, most);
    return needed <= most;
}

int main(void) {
    static long rattle[PREPARED], plain[PREPARED];
    // C first: a function of the C library takes stack to be found when it is called for the first time.
    size_t fast_stack = most_stack(fast_tick), plain_stack = most_stack(plain_tick), stack = most_stack(board_tick);
    printf("stack that a tick needs, most of %d ticks: Rattle %zu bytes, plain C %zu, fast C %zu\n", TICKS, stack,
           plain_stack, fast_stack);
    fflush(stdout);
    count_steps(board_tick, rattle);
    count_steps(plain_tick, plain);
    printf("%-34s %8s %8s\n", "instructions", "plain C", "Rattle");
    for (int n = 0; n < PREPARED; n++) printf("%-34s %8ld %8ld\n", prepared[n].name, plain[n], rattle[n]);
    bool well = within("bytes of stack", (long)stack, STACK_MOST);
    for (int n = 0; n < PREPARED; n++) well &= within(prepared[n].name, rattle[n], prepared[n].at_fault ? REFUSAL_MOST : TICK_MOST);
    return well ? 0 : 1;
}
