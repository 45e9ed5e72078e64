/*
 * Of the test of the stack (main.c): a call made on a stack of its own, and how deep it went. measure.c says what is
 * counted.
 */
#ifndef MEASURE_H
#define MEASURE_H

#include <fennqualo.h>

/* What the known call has on the stack for itself. */
#define KNOWN_BYTES 1000

/* EMPTY does nothing and KNOWN writes to bytes of its own, to see that the measure is right. */
enum call { EMPTY, KNOWN, CHECK, COPY, OVER, BACK, PLAY, READ, CALLS };

extern const char *const call_names[CALLS];

/*
 * What calls are made on, and what the last one answered: copy and the moves write into the first `room` bytes of out,
 * k is for the reader.
 */
struct job {
    enum call call;
    const uint8_t *bytes;
    size_t length, room, k, answer;
    uint8_t out[FENNQUALO_ARCHIVE_MOST + 64], book[FENNQUALO_BOOK_MOST];
    uint64_t counts[FENNQUALO_COUNTS];
};

extern struct job job;

/* The highest figure of each call up to now, and how often it was measured. */
extern size_t most[CALLS], made[CALLS];

/* Makes the call and measures it; answers what it answered. */
size_t measured(enum call call);

/*
 * The calls that write an archive into lent room, in writes.c: each makes one call, measured, on the job's bytes, which
 * fennqualo_check answers `refusal` to, and fails if the answer or a byte of the room is wrong.
 */
void judge_copy(size_t room, size_t refusal);
void judge_move(enum call call, size_t room, size_t refusal);

/* How often the moves have given each answer. */
extern size_t met[CALLS][18];

/* The length of the job's archive, which is accepted, in the other version. */
size_t moved_length(void);

/* What is in lent room before a call, and whether every byte is as it was then. */
#define FILL 0xEE
int is_filled(const void *bytes, size_t length);

/* Says of which input and call something is wrong, and ends the program with 1; in main.c. */
void fail(const char *what);

#endif
