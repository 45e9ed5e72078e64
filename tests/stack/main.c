/*
 * stack CORPUS [WORDS]: measures the stack that the calls of include/fennqualo.h and the archive reader (stack_read,
 * crates/stack) take, and holds it to the limits below; measure.c says what is counted. Every *.bin file of the folder
 * CORPUS goes through all of them, and damaged ones made of each that is accepted through all but the move of the other
 * version; what the calls answer is checked too. WORDS, as `compiled for aarch64`, are added to each figure's line;
 * without them the figures are held to those of the header too.
 * Exit: 0 all is well; 1 a limit is reached, an answer is wrong, or something is not there to be seen; 2 wrong usage.
 */
#define _XOPEN_SOURCE 600
#include "measure.h"
#include <dirent.h>
#include <stdio.h>
#include <stdlib.h>
#include <string.h>

/* A figure has to stay below its limit, the reader's beside its answer. */
#define CHECK_LIMIT 1024
#define COPY_LIMIT 4096
#define MOVE_LIMIT 4096
#define READ_LIMIT 4096

/* The reader's answer, a Result: which it is 8, network 8,728, seed, draws and count 16, sends 255 x 16. */
#define ANSWER_BYTES (8 + 8728 + 16 + 255 * 16)
/* What of it stack_read cannot do without: channels, routes and sends. */
#define PICKED_BYTES (2 * 256 + 2 * 4096 + 255 * 16)

#define ROOM 65600 /* more than the longest file has */
#define ROUNDS 40  /* of random damage to each archive */
#define EDITIONS 3 /* that there are, 1 to 3 */

static const char *file = "no file";
static char how[64];                      /* how the file was damaged, or nothing */
static size_t archives, damaged, longest; /* files, damaged ones, the length of the longest that was accepted */
static size_t refusals[18];               /* how many were refused with each number; at 0 those accepted */
static uint64_t value;                    /* of the random damage */

void fail(const char *what)
{
    fprintf(stderr, "stack: %s%s, %s: %s\n", file, how, call_names[job.call], what);
    exit(1);
}

static void refuse_file(const char *name, const char *what)
{
    fprintf(stderr, "stack: %s %s\n", name, what);
    exit(1);
}

static uint64_t word_at(const uint8_t *bytes, size_t at)
{
    return bytes[at] * 256u + bytes[at + 1];
}

/* Channel c of an archive of version 1, and of version 2, by its bytes; 65535 for none. */
static uint64_t channel_at(const uint8_t *bytes, size_t c)
{
    if (bytes[2] == 2) {
        return word_at(bytes, 14 + 2 * c);
    }
    return bytes[13 + c] == 255 ? 65535 : bytes[13 + c];
}

/*
 * What stack_read answers for an archive: 32 and the number that crates/stack makes of a channel, a route and a send, by
 * the archive's own bytes (docs/FORMAT.md). Places beyond S sites or N sends are 0.
 */
static uint64_t picked(const uint8_t *bytes, size_t k)
{
    size_t wide = bytes[2] == 2, sites = bytes[3 + wide], sends = bytes[12 + wide], width = wide ? 11 : 5;
    size_t routes = wide ? 14 + 8 * sites : 13 + 4 * sites, send = routes + 2 * sites * sites + width * (k % 255);
    uint64_t number = 0;

    if (k % 255 < sends) {
        number = (64 * bytes[send + width - 1] + bytes[send + 2] % 64) * 65536 + word_at(bytes, send);
    }
    number *= 65536;
    if (k % 4096 < sites * sites) {
        number += word_at(bytes, routes + 2 * (k % 4096));
    }
    number *= 65536;
    if (k % 256 < 4 * sites) {
        number += channel_at(bytes, k % 256);
    }
    return 32 + number;
}

static void judge_read(size_t k, size_t refusal)
{
    job.k = k;
    if (measured(READ) != (refusal != 0 ? refusal : picked(job.bytes, k))) {
        fail("not the refusal of fennqualo_check, or not what the bytes say");
    }
}

static void judge_play(size_t refusal)
{
    memset(job.book, FILL, sizeof job.book);
    memset(job.counts, FILL, sizeof job.counts);
    if (measured(PLAY) != refusal) {
        fail("another refusal");
    }
    if (refusal == 0 && job.counts[FENNQUALO_SERVICED] + job.counts[FENNQUALO_OWED] != job.counts[FENNQUALO_PAIRS]) {
        fail("serviced and owed do not make up the pairs");
    }
    if (refusal != 0 && !(is_filled(job.book, sizeof job.book) && is_filled(job.counts, sizeof job.counts))) {
        fail("refused, and something is written");
    }
}

/* The move that takes the version of the bytes. */
static enum call way(void)
{
    return job.length > 2 && job.bytes[2] == 2 ? BACK : OVER;
}

/* Hands the bytes to every call, but for the other move; answers the refusal. */
static size_t judge(const uint8_t *bytes, size_t length, size_t k)
{
    size_t refusal;

    job.bytes = bytes;
    job.length = length;
    refusal = measured(CHECK);
    if (refusal > 8 && refusal != 17) {
        fail("not 0 to 8, nor 17");
    }
    refusals[refusal]++;
    judge_read(k, refusal);
    judge_copy(sizeof job.out, refusal);
    judge_move(way(), sizeof job.out, refusal);
    judge_play(refusal);
    return refusal;
}

/* The next value of a 64-bit xorshift. */
static uint64_t next(void)
{
    value ^= value << 13;
    value ^= value >> 7;
    value ^= value << 17;
    return value;
}

static void judge_damaged(const uint8_t *bytes, size_t length, const char *what, size_t number)
{
    snprintf(how, sizeof how, ", %s %lu", what, (unsigned long)number);
    damaged++;
    judge(bytes, length, (size_t)next());
}

/* Every byte of the first 100, and some behind, with two other values, one at a time; then cut; then at random. */
static void damage(const uint8_t *whole, size_t length)
{
    static uint8_t bytes[ROOM];
    size_t at, round;

    memcpy(bytes, whole, length);
    for (at = 0; at < length; at += at < 100 ? 1 : 37) {
        bytes[at] = (uint8_t)(whole[at] + 1);
        judge_damaged(bytes, length, "one more at byte", at);
        bytes[at] = whole[at] ^ 0x80;
        judge_damaged(bytes, length, "another highest bit at byte", at);
        bytes[at] = whole[at];
    }
    judge_damaged(bytes, 0, "cut to", 0);
    judge_damaged(bytes, length - 1, "cut to", length - 1);
    bytes[0] = (uint8_t)((length - 1) / 256);
    bytes[1] = (uint8_t)(length - 1);
    judge_damaged(bytes, length - 1, "cut, with its length field, to", length - 1);
    for (round = 0; round < ROUNDS; round++) {
        memcpy(bytes, whole, length);
        for (at = next() % 3 + 1; at > 0; at--) {
            bytes[next() % length] = (uint8_t)next();
        }
        judge_damaged(bytes, length, "random damage", round);
    }
}

/* The file of version 2 in every edition that there is, and in the next one, which is refused with 17. */
static void judge_editions(uint8_t *bytes, size_t length)
{
    uint8_t edition = bytes[3];
    unsigned number;

    for (number = 1; number <= EDITIONS + 1; number++) {
        bytes[3] = (uint8_t)number;
        snprintf(how, sizeof how, ", in edition %u", number);
        damaged++;
        if (judge(bytes, length, number) != (number <= EDITIONS ? 0 : 17)) {
            fail("not 0 in an edition that there is, or not 17 in one that there is not");
        }
    }
    bytes[3] = edition;
    how[0] = '\0';
}

/* The file as it is, by both moves too; every place of its run by the reader; without room enough; in every edition; the
 * file damaged. */
static void judge_file(const char *folder, const char *name)
{
    static uint8_t bytes[ROOM];
    static char path[4096];
    FILE *opened;
    size_t length, refusal, k;

    file = name;
    how[0] = '\0';
    snprintf(path, sizeof path, "%s/%s", folder, name);
    opened = fopen(path, "rb");
    if (opened == NULL) {
        refuse_file(path, "cannot be opened");
    }
    length = fread(bytes, 1, sizeof bytes, opened);
    if (ferror(opened) || length == sizeof bytes) {
        refuse_file(path, "cannot be read, or is too long");
    }
    fclose(opened);
    archives++;
    value = 88172645463325252u;
    refusal = judge(bytes, length, 0);
    judge_move(way() == OVER ? BACK : OVER, sizeof job.out, refusal);
    if (refusal != 0) {
        return;
    }
    longest = length > longest ? length : longest;
    judge_copy(length - 1, FENNQUALO_ROOM);
    judge_move(way(), moved_length() - 1, 0);
    for (k = 1; k < 4096; k += k < 256 ? 1 : 61) {
        judge_read(k, 0);
    }
    if (way() == BACK) {
        judge_editions(bytes, length);
    }
    damage(bytes, length);
}

static void judge_folder(const char *folder)
{
    DIR *opened = opendir(folder);
    struct dirent *entry;
    size_t length;

    if (opened == NULL) {
        refuse_file(folder, "cannot be listed");
    }
    while ((entry = readdir(opened)) != NULL) {
        length = strlen(entry->d_name);
        if (length > 4 && strcmp(entry->d_name + length - 4, ".bin") == 0) {
            judge_file(folder, entry->d_name);
        }
    }
    closedir(opened);
}

static int holds(int fact, const char *otherwise)
{
    if (!fact) {
        fprintf(stderr, "stack: %s\n", otherwise);
    }
    return fact;
}

/* Whether all that the test is to see was there, and the measure is right; otherwise the figures say little. */
static int is_sound(void)
{
    size_t number;
    int sound = 1;

    for (number = 0; number < 9; number++) {
        sound &= holds(refusals[number] > 0, "one of the answers 0 to 8 is given to no archive: the test has a gap");
        sound &= holds(met[OVER][number] > 0 && met[BACK][number] > 0, "a move gives one of them to no archive: a gap");
    }
    sound &= holds(refusals[17] > 0 && met[BACK][17] > 0, "the answer 17 is given to no archive: the test has a gap");
    sound &= holds(met[BACK][15] > 0, "the answer 15 is given to no archive: the test has a gap");
    sound &= holds(met[OVER][14] > 0 && met[BACK][14] > 0, "no archive is moved without room: the test has a gap");
    sound &= holds(longest == FENNQUALO_ARCHIVE_MOST, "the longest archive is not among those accepted");
    sound &= holds(most[EMPTY] <= 16, "the measure is wrong: an empty call takes more than an address or two");
    sound &= holds(most[KNOWN] >= KNOWN_BYTES && most[KNOWN] < KNOWN_BYTES + 200, "the measure is wrong: a known call");
    sound &= holds(most[READ] >= PICKED_BYTES, "the reader's answer is not on the stack: its figure says nothing");
    return sound;
}

/* The line of a figure, which has to be below its limit; a limit of 0 is none. */
static int print_figure(enum call call, const char *words, const char *beside, size_t figure, size_t limit)
{
    printf("stack: %s %lu bytes at most%s", call_names[call], (unsigned long)most[call], beside);
    if (limit == 0) {
        printf(", no limit%s\n", words);
        return 1;
    }
    printf(", limit %lu%s%s\n", (unsigned long)limit, figure < limit ? "" : ": reached", words);
    return figure < limit;
}

int main(int count, char **words)
{
    char behind[64] = "", beside[64];
    size_t reader;
    int good;

    if (count < 2 || count > 3) {
        fprintf(stderr, "stack: usage: stack CORPUS [WORDS]\n");
        return 2;
    }
    if (count == 3) {
        snprintf(behind, sizeof behind, ", %s", words[2]);
    }
    measured(EMPTY);
    measured(KNOWN);
    judge_folder(words[1]);
    good = is_sound();
    reader = most[READ] < ANSWER_BYTES ? 0 : most[READ] - ANSWER_BYTES;
    snprintf(beside, sizeof beside, ", of which its answer %d: %lu beside it", ANSWER_BYTES, (unsigned long)reader);
    printf("stack: an empty call %lu bytes, one that writes to %d of its own %lu\n", (unsigned long)most[EMPTY],
           KNOWN_BYTES, (unsigned long)most[KNOWN]);
    good &= print_figure(CHECK, behind, "", most[CHECK], CHECK_LIMIT);
    good &= print_figure(COPY, behind, "", most[COPY], COPY_LIMIT);
    good &= print_figure(OVER, behind, "", most[OVER], MOVE_LIMIT);
    good &= print_figure(BACK, behind, "", most[BACK], MOVE_LIMIT);
    good &= print_figure(PLAY, behind, "", most[PLAY], 0);
    good &= print_figure(READ, behind, beside, reader, READ_LIMIT);
    if (count == 2) { /* the header speaks of x86-64 */
        good &= holds(most[CHECK] <= FENNQUALO_CHECK_STACK, "include/fennqualo.h says less of fennqualo_check");
        good &= holds(most[COPY] <= FENNQUALO_COPY_STACK, "include/fennqualo.h says less of fennqualo_copy");
        good &= holds(most[OVER] <= FENNQUALO_OVER_STACK, "include/fennqualo.h says less of fennqualo_over");
        good &= holds(most[BACK] <= FENNQUALO_BACK_STACK, "include/fennqualo.h says less of fennqualo_back");
        good &= holds(most[PLAY] <= FENNQUALO_PLAY_STACK, "include/fennqualo.h says less of fennqualo_play");
    }
    printf("stack: %lu archives of the corpus and %lu damaged ones, %lu accepted; %lu calls, every answer right\n",
           (unsigned long)archives, (unsigned long)damaged, (unsigned long)refusals[0],
           (unsigned long)(made[CHECK] + made[COPY] + made[OVER] + made[BACK] + made[PLAY] + made[READ]));
    return good ? 0 : 1;
}
