/*
 * Of the test of the stack (main.c): makes a call on a stack of its own, painted before, and measures how deep it went.
 *
 * What is counted. The figure of a call is the number of bytes from the stack pointer at the call, before the return
 * address is pushed, down to the deepest byte that changed, both the return address and that byte counted in; all that
 * the call calls in turn is in it, memcpy and memset too. A byte that is set aside and never written is not counted.
 * The stack pointer at the call is the frame address of make_call, which has no locals. If a compiler kept something
 * between the two, the figures would be higher, never lower, and that of the empty call would show it.
 */
#define _XOPEN_SOURCE 600
#include "measure.h"
#include <string.h>
#include <ucontext.h>

#define STACK (256 * 1024)
#define CHUNK 4096

/* Each call is made on both paints, and the deeper figure counts: a byte that equals one paint does not hide. */
#define FIRST_PAINT 0xA5
#define SECOND_PAINT 0x5A

/* The archive reader, crates/stack. */
size_t stack_read(const uint8_t *archive, size_t archive_length, size_t k);

const char *const call_names[CALLS] = {
    "an empty call",  "a known call",   "fennqualo_check", "fennqualo_copy",
    "fennqualo_over", "fennqualo_back", "fennqualo_play",  "stack_read",
};

struct job job;
size_t most[CALLS], made[CALLS];

static uint8_t stack[STACK];
static uintptr_t pointer;    /* the stack pointer at the last call */
static volatile size_t zero; /* which no compiler knows to be 0 */

static __attribute__((noinline)) size_t empty_call(void)
{
    return zero;
}

/* Writes the first paint at the low end of its bytes, so that only the second one shows it. */
static __attribute__((noinline)) size_t known_call(void)
{
    volatile uint8_t own[KNOWN_BYTES];

    own[zero + KNOWN_BYTES - 1] = 0;
    own[zero] = FIRST_PAINT;
    return own[KNOWN_BYTES - 1];
}

/* Makes the call. What it answers is stored behind it, so that no call is made as a jump. */
static __attribute__((noinline)) void make_call(void)
{
    pointer = (uintptr_t)__builtin_frame_address(0);
    switch (job.call) {
    case EMPTY:
        job.answer = empty_call();
        break;
    case KNOWN:
        job.answer = known_call();
        break;
    case CHECK:
        job.answer = fennqualo_check(job.bytes, job.length);
        break;
    case COPY:
        job.answer = fennqualo_copy(job.bytes, job.length, job.out, job.room);
        break;
    case OVER:
        job.answer = fennqualo_over(job.bytes, job.length, job.out, job.room);
        break;
    case BACK:
        job.answer = fennqualo_back(job.bytes, job.length, job.out, job.room);
        break;
    case PLAY:
        job.answer = fennqualo_play(job.bytes, job.length, job.book, sizeof job.book, job.counts, FENNQUALO_COUNTS);
        break;
    default:
        job.answer = stack_read(job.bytes, job.length, job.k);
    }
}

/* Where the other stack begins. What making and leaving a context writes there stays in the margin. */
static void begin(void)
{
    volatile uint8_t margin[1024];

    margin[0] = 0;
    make_call();
    margin[1] = margin[0];
}

/* Makes the call on the other stack, painted. */
static void call_on(int paint)
{
    static ucontext_t here, there;

    memset(stack, paint, sizeof stack);
    if (getcontext(&there) != 0) {
        fail("no context");
    }
    there.uc_stack.ss_sp = stack;
    there.uc_stack.ss_size = sizeof stack;
    there.uc_link = &here;
    makecontext(&there, begin, 0);
    if (swapcontext(&here, &there) != 0) {
        fail("no context");
    }
    if (pointer < (uintptr_t)stack || pointer > (uintptr_t)(stack + sizeof stack)) {
        fail("not made on the other stack");
    }
}

/* The figure of the call that was made on this paint: the first byte from the low end on that has changed. */
static size_t figure_of(int paint)
{
    size_t at = 0;

    if (stack[0] != paint) {
        fail("the other stack is too short");
    }
    while (at + CHUNK < sizeof stack && memcmp(stack + at, stack + at + 1, CHUNK) == 0) {
        at += CHUNK;
    }
    while (at < sizeof stack && stack[at] == paint) {
        at++;
    }
    return pointer < (uintptr_t)(stack + at) ? 0 : pointer - (uintptr_t)(stack + at);
}

size_t measured(enum call call)
{
    static const int paints[2] = { FIRST_PAINT, SECOND_PAINT };
    size_t answers[2], figure, k;

    job.call = call;
    if (made[call] == 0) {
        make_call(); /* once beforehand, so that nothing is bound during a call that is measured */
    }
    for (k = 0; k < 2; k++) {
        call_on(paints[k]);
        answers[k] = job.answer;
        figure = figure_of(paints[k]);
        most[call] = figure > most[call] ? figure : most[call];
        made[call]++;
    }
    if (answers[0] != answers[1]) {
        fail("two answers");
    }
    return answers[0];
}
