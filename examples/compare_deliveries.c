/*
 * compare_deliveries ARCHIVE LOG: plays an archive and compares the model's deliveries with those that a controller
 * logged, 4 bytes each as in our book: draw (2 bytes, the higher first), packet, site. Prints the first difference.
 * Exit: 0 no difference, 1 a difference, 2 an archive that is refused, or a file that cannot be used.
 * A stand-in for a controller's own test bench; docs/FORMAT.md has the archive, include/fennqualo.h the library.
 */
#include <fennqualo.h>
#include <stdio.h>
#include <stdlib.h>

/* More than an archive's length field can say and than any book has: what a file has beyond it changes nothing. */
#define ROOM 65540

static size_t read_file(const char *name, uint8_t *room)
{
    FILE *file = fopen(name, "rb");
    size_t count;

    if (file == NULL) {
        fprintf(stderr, "compare_deliveries: %s cannot be opened\n", name);
        exit(2);
    }
    count = fread(room, 1, ROOM, file);
    if (ferror(file)) {
        fprintf(stderr, "compare_deliveries: %s cannot be read\n", name);
        exit(2);
    }
    fclose(file);
    return count;
}

/* Prints the delivery at the given place of a book or log, or that there is none. */
static void print_delivery(const char *who, const uint8_t *book, size_t length, size_t at)
{
    if (at + FENNQUALO_SERVICE > length) {
        printf("%s: nothing\n", who);
        return;
    }
    printf("%s: draw %u packet %u site %u\n", who, book[at] * 256u + book[at + 1], book[at + 2], book[at + 3]);
}

/* The first place where the two differ, or the common length. */
static size_t first_difference(const uint8_t *book, size_t booked, const uint8_t *log, size_t logged)
{
    size_t at = 0;

    while (at < booked && at < logged && book[at] == log[at]) {
        at++;
    }
    return at;
}

int main(int count, char **words)
{
    static uint8_t archive[ROOM], log[ROOM], book[FENNQUALO_BOOK_MOST];
    uint64_t counts[FENNQUALO_COUNTS];
    size_t archived, logged, booked, at;
    uint8_t refusal;

    if (count != 3) {
        fprintf(stderr, "usage: compare_deliveries ARCHIVE LOG\n");
        return 2;
    }
    archived = read_file(words[1], archive);
    logged = read_file(words[2], log);
    if (logged % FENNQUALO_SERVICE != 0) {
        fprintf(stderr, "compare_deliveries: %s is not made of %d bytes a delivery\n", words[2], FENNQUALO_SERVICE);
        return 2;
    }
    refusal = fennqualo_play(archive, archived, book, sizeof book, counts, FENNQUALO_COUNTS);
    if (refusal != 0) {
        printf("refused %u\n", refusal);
        return 2;
    }
    booked = FENNQUALO_SERVICE * (size_t)counts[FENNQUALO_SERVICED];
    at = first_difference(book, booked, log, logged);
    if (at == booked && at == logged) {
        printf("%lu deliveries, no difference\n", (unsigned long)(booked / FENNQUALO_SERVICE));
        return 0;
    }
    at -= at % FENNQUALO_SERVICE;
    printf("delivery %lu differs\n", (unsigned long)(at / FENNQUALO_SERVICE));
    print_delivery("model", book, booked, at);
    print_delivery("controller", log, logged, at);
    return 1;
}
