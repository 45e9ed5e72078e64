/*
 * Fennqualo's library for C: plays, checks and copies archives of version 1, with up to 16 sites, and of version 2,
 * with up to 64, in edition 1, 2 or 3, and moves them from one version to the other (docs/FORMAT.md has their form,
 * docs/MODEL.md what they mean). Link libfennqualo.a; it needs memcpy and memset and nothing else, keeps nothing
 * between calls, and may be called from many threads at once. It is compiled for x86-64 Linux. How much stack a call
 * takes is said with it, below.
 *
 * Slices. A slice is a pointer and the number of elements behind it. The caller sees to it that
 *   - the elements are there, and a uint64_t slice is aligned as any uint64_t array is;
 *   - no two slices of one call overlap, and no other thread writes to any of them, or reads a lent one, meanwhile.
 * Every length is taken, 0 too: no element of an empty slice is touched, and its pointer may be NULL. Any bytes may be
 * handed in.
 *
 * Answers. 0, or the number of a refusal. A call that answers a refusal has written nothing: every element of every
 * slice is as it was. Otherwise the elements behind what is written stay as they were.
 *
 *    1  fewer than 13 bytes, or the length field is not the number of bytes
 *    2  the version is neither 1 nor 2, or not the one that is moved from
 *   17  the edition is unknown: it is none of 1, 2 and 3
 *    3  sites, limit of tries or depth of queues outside their limits, the sites of the version
 *    4  the seed is 0
 *    5  the length is not that of the version with so many sites and sends
 *    6  a channel that names no input, or an input fed twice
 *    7  a route not as described
 *    8  a send's site, set or draw number impossible, or draw numbers falling
 *   15  it cannot go back to version 1: more than 16 sites, or an edition other than 1
 *   14  a lent slice is too short
 *
 * The first that holds is given, in this order.
 */
#ifndef FENNQUALO_H
#define FENNQUALO_H

#include <stddef.h>
#include <stdint.h>

#ifdef __cplusplus
extern "C" {
#endif

/* The longest archive, in bytes: version 2, 64 sites, 255 sends. */
#define FENNQUALO_ARCHIVE_MOST 11523

/* The longest archive of version 1, in bytes: 16 sites, 255 sends. */
#define FENNQUALO_FIRST_MOST 1864

/* A book of so many bytes is never too short: 255 sends to 64 sites each, 4 bytes a service. */
#define FENNQUALO_BOOK_MOST 65280

/* The bytes of one service in a book: draw (2 bytes, the higher first), packet, site. */
#define FENNQUALO_SERVICE 4

/* The places of the counts. */
#define FENNQUALO_COUNTS 4
#define FENNQUALO_ACCEPTED 0 /* packets accepted */
#define FENNQUALO_PAIRS 1    /* their summed set sizes: pairs of packet and target */
#define FENNQUALO_SERVICED 2 /* services, which is the number of entries in the book */
#define FENNQUALO_OWED 3     /* pairs still owed at the end */

/* The refusal for a lent slice that is too short. */
#define FENNQUALO_ROOM 14

/*
 * The stack that a call takes, in bytes, from its return address down: the most that was measured on x86-64 (166, 214,
 * 294, 294 and 66,174 bytes, over the corpus and archives cut and damaged from it, 64 sites among them), rounded up. It is
 * measured, not proved; memcpy and memset are the caller's own, and those of glibc are counted in.
 */
#define FENNQUALO_CHECK_STACK 320
#define FENNQUALO_COPY_STACK 320
#define FENNQUALO_OVER_STACK 448
#define FENNQUALO_BACK_STACK 448
#define FENNQUALO_PLAY_STACK 69632

/*
 * Plays an archive. The services go to the front of the book, in order; the four counts to the front of counts. It takes
 * FENNQUALO_PLAY_STACK bytes of stack.
 * Refusals: 1 to 8 and 17; 14 if the book is shorter than 4 bytes for each target of each stored send (FENNQUALO_BOOK_MOST is
 * always enough), or if counts has fewer than FENNQUALO_COUNTS places.
 */
uint8_t fennqualo_play(const uint8_t *archive, size_t archive_length, uint8_t *book, size_t book_length,
                       uint64_t *counts, size_t counts_length);

/*
 * Checks an archive, in FENNQUALO_CHECK_STACK bytes of stack: all is read where it lies, nothing is unpacked.
 * Refusals: 1 to 8 and 17; 0 means that fennqualo_play, with room enough, plays it.
 */
uint8_t fennqualo_check(const uint8_t *archive, size_t archive_length);

/*
 * Checks an archive and copies it to the front of out: the same archive_length bytes, which are those that the writer
 * gives for its run. It takes FENNQUALO_COPY_STACK bytes of stack.
 * Refusals: 1 to 8 and 17; 14 if out is shorter than the archive (FENNQUALO_ARCHIVE_MOST is always enough).
 */
uint8_t fennqualo_copy(const uint8_t *archive, size_t archive_length, uint8_t *out, size_t out_length);

/*
 * Moves an archive of version 1 over to version 2: the same run, of edition 1, which plays to the same counts and the
 * same book. It goes to the front of out: 14 + 8S + 2S^2 + 11N bytes for S sites and N sends, the number that its own
 * first two bytes hold, the higher first. fennqualo_back makes the archive handed in of it again, byte for byte. It
 * takes FENNQUALO_OVER_STACK bytes of stack.
 * Refusals: 1; 2 if the version is not 1, whatever stands behind it; 3 to 8; 14 if out is shorter than the moved
 * archive (FENNQUALO_ARCHIVE_MOST is always enough). 15 and 17 are not among them: what is accepted here can be moved.
 */
uint8_t fennqualo_over(const uint8_t *archive, size_t archive_length, uint8_t *out, size_t out_length);

/*
 * Moves an archive of version 2 back to version 1, if it has at most 16 sites and edition 1: the same run, which plays
 * to the same counts and the same book. It goes to the front of out: 13 + 4S + 2S^2 + 5N bytes, the number that its own
 * first two bytes hold, the higher first. fennqualo_over makes the archive handed in of it again, byte for byte. It
 * takes FENNQUALO_BACK_STACK bytes of stack.
 * Refusals: 1; 2 if the version is not 2, whatever stands behind it; 17; 3 to 8; 15 if it has more than 16 sites or an
 * edition other than 1; 14 if out is shorter than the moved archive (FENNQUALO_FIRST_MOST is always enough).
 */
uint8_t fennqualo_back(const uint8_t *archive, size_t archive_length, uint8_t *out, size_t out_length);

#ifdef __cplusplus
}
#endif

#endif
