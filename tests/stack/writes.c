/*
 * Of the test of the stack (main.c): the calls that write an archive into lent room, fennqualo_copy, fennqualo_over and
 * fennqualo_back, and what they have to answer and to write.
 */
#include "measure.h"
#include <string.h>

size_t met[CALLS][18];

int is_filled(const void *bytes, size_t length)
{
    const uint8_t *from = bytes;

    return from[0] == FILL && memcmp(from, from + 1, length - 1) == 0;
}

/* Makes the call with so much room; it has to answer this, and to write `length` bytes and no other. */
static void make(enum call call, size_t room, size_t answer, size_t length)
{
    job.room = room;
    memset(job.out, FILL, sizeof job.out);
    if (measured(call) != answer) {
        fail("another refusal");
    }
    if (!is_filled(job.out + length, sizeof job.out - length)) {
        fail("something else is written");
    }
}

void judge_copy(size_t room, size_t refusal)
{
    size_t length = refusal == 0 ? job.length : 0;

    make(COPY, room, refusal, length);
    if (memcmp(job.out, job.bytes, length) != 0) {
        fail("not the same bytes");
    }
}

size_t moved_length(void)
{
    size_t wide = job.bytes[2] == 2, sites = job.bytes[3 + wide], sends = job.bytes[12 + wide];

    return (wide ? 13 + 4 * sites + 5 * sends : 14 + 8 * sites + 11 * sends) + 2 * sites * sites;
}

/* What a move answers: 1, 2 for a version that it does not take, the others of fennqualo_check, 15, 14, 0. */
static size_t moves_answer(enum call call, size_t room, size_t refusal)
{
    if (refusal != 1 && job.bytes[2] != (call == OVER ? 1 : 2)) {
        return 2;
    }
    if (refusal != 0) {
        return refusal;
    }
    if (call == BACK && (job.bytes[4] > 16 || job.bytes[3] != 1)) {
        return 15;
    }
    return room < moved_length() ? FENNQUALO_ROOM : 0;
}

void judge_move(enum call call, size_t room, size_t refusal)
{
    static uint8_t again[FENNQUALO_ARCHIVE_MOST];
    size_t answer = moves_answer(call, room, refusal), length = answer == 0 ? moved_length() : 0;

    met[call][answer]++;
    make(call, room, answer, length);
    if (answer != 0) {
        return;
    }
    answer = call == OVER ? fennqualo_back(job.out, length, again, job.length)
                          : fennqualo_over(job.out, length, again, job.length);
    if (answer != 0 || memcmp(again, job.bytes, job.length) != 0) {
        fail("the other move does not give the same bytes");
    }
}
