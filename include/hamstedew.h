/* Policy books for C programs: accept, evaluate and run. docs/FORMAT.md tells how a book is written and what the words mean.
 *
 * Link target/staticlib/libexports.a, which `tools/build exports` writes, code for Linux on x86-64; it needs only memcpy and memset
 * of the C library. Every answer below is proved of the compiled functions' source: crates/exports/src has the contracts.
 *
 * Each function returns a code and puts values in the first words that are lent for them; the words after these are kept.
 *
 *   code                      values
 *   HAMSTEDEW_ANSWERED        as told at each function
 *   HAMSTEDEW_RUNNING         of run only: the schedule ended before the policy did
 *   1 to 13                   the number that turns the call away (below), and one value: its place, 0 but for 5, 7 and 13
 *   HAMSTEDEW_TOO_FEW_WORDS   none: fewer than HAMSTEDEW_VALUES words are lent for the values, and nothing is done
 *
 * A call that is turned away changes no word of the result or of the working area.
 *
 * What a caller must know:
 *
 * - Buffers. Each is a pointer and a length, counted in elements. Where the length is 0 the pointer may be null. Words are in the
 *   machine's own byte order and aligned as C aligns their type; only inside a book do numbers have the high byte first.
 * - Overlap. A buffer that is written (result, area, values) must not share memory with any other buffer of the call: the contracts
 *   take them to be apart, and nothing is said of what a call does where they are not. Buffers that are only read may be the same.
 * - Memory. No function keeps a pointer, has state, or asks for memory; calls in several threads do not disturb each other as long as
 *   none writes a buffer that another uses.
 * - Stack. Measured by bench/stack on books that nest as deep as the rules allow: accept takes up to 3.8 KiB, evaluate 61 KiB, run
 *   69 KiB. A thread with a stack of 160 KiB has enough for any of them; how much is left is not looked at.
 * - Time. accept takes time in proportion to the book. evaluate does not: N, its number of steps, is up to 4 n 16^D, and a book of
 *   1,155 bytes makes one packet cost 62,748,530 steps on up to 16 packets each, which takes seconds (docs/SPEED.md). run asks evaluate
 *   first, so that it takes as long, also where it then turns the call away. Nothing ends a call early. Who takes books from strangers
 *   asks accept first, whose n and D bound N, or makes the call where it can be given up.
 */
#ifndef HAMSTEDEW_H
#define HAMSTEDEW_H

#include <stddef.h>
#include <stdint.h>

#ifdef __cplusplus
extern "C" {
#endif

/* Words to lend for the values of any answer. */
#define HAMSTEDEW_VALUES 5

/* Limits: bytes of a book, fields (k), tables (m), levels of a body, parts of the main policy (n), concurrent parts on a path down (D),
 * packets of a set, positions of a run. */
#define HAMSTEDEW_MOST_BYTES 4096
#define HAMSTEDEW_MOST_FIELDS 8
#define HAMSTEDEW_MOST_TABLES 15
#define HAMSTEDEW_MOST_DEPTH 32
#define HAMSTEDEW_MOST_PARTS 1023
#define HAMSTEDEW_MOST_CONCURRENT 4
#define HAMSTEDEW_MOST_PACKETS 16
#define HAMSTEDEW_MOST_POSITIONS 160

/* Words of a run's working area. */
#define HAMSTEDEW_AREA_WORDS 21760

/* Words that a result needs for a book with k fields. */
#define HAMSTEDEW_RESULT_WORDS(k) (HAMSTEDEW_MOST_PACKETS * (k))

enum {
    HAMSTEDEW_ANSWERED = 0,
    HAMSTEDEW_BOOK_LENGTH = 1,    /* a book shorter than 2 or longer than 4,096 bytes */
    HAMSTEDEW_COUNTS = 2,         /* k not 1 to 8, or m above 15 */
    HAMSTEDEW_LENGTHS = 3,        /* header, contents and stated lengths do not add up to the book */
    HAMSTEDEW_ENTRY_MASKS = 4,    /* an entry's masks overlap or name a field that is not there */
    HAMSTEDEW_FORM = 5,           /* a body breaks its form; its place is the first byte that cannot stand there */
    HAMSTEDEW_LIMITS = 6,         /* more than 1,023 parts, or more than 4 concurrent parts on a path down */
    HAMSTEDEW_TYPING = 7,         /* typing; its place is the concurrent part or the body that is not right */
    HAMSTEDEW_PACKET_LENGTH = 8,  /* a packet not of k words */
    HAMSTEDEW_UNPOPULATED = 9,    /* the main policy names an unpopulated table */
    HAMSTEDEW_TOO_WIDE = 10,      /* some part is handed or gives more than 16 packets */
    HAMSTEDEW_POSITIONS = 11,     /* a room of more than 160 positions (run only) */
    HAMSTEDEW_BUFFER_LENGTH = 12, /* a result of fewer than 16 k words; for a run, a working area of fewer than 21,760 */
    HAMSTEDEW_STUCK = 13,         /* a step at a field that its position lacks; no accepted book has one (run only) */
    HAMSTEDEW_RUNNING = 100,
    HAMSTEDEW_TOO_FEW_WORDS = 255
};

/* The verdict on a book of book_length bytes.
 * Values when answered: k, m, n and D: fields, tables, parts, and the most concurrent parts on a path down.
 * Turned away by 1 to 7. */
uint64_t hamstedew_accept(const uint8_t *book, size_t book_length, uint64_t *sizes, size_t sizes_length);

/* One packet of k words through a book.
 * Values when answered: the count of packets, N (the steps of every full run), n, D, and the room (positions of a run).
 * The packets stand in the first count * k words of the result, one after the other, ascending; its other words are kept.
 * Turned away by 1 to 7, then 8, 12, 9 and 10. */
uint64_t hamstedew_evaluate(const uint8_t *book, size_t book_length, const uint16_t *packet, size_t packet_length,
                            uint16_t *result, size_t result_length, uint64_t *outcome, size_t outcome_length);

/* One packet of k words through a book, step by step: byte b of the schedule picks ready position b mod r, of r from left to right.
 * No byte is read after the finish.
 * Values when answered: the steps made, and the count of packets, which stand in the result as after hamstedew_evaluate.
 * Values when running: the steps made, the live positions and the ready positions; the result is kept.
 * After either, the first HAMSTEDEW_AREA_WORDS words of the working area are zero and its other words kept.
 * Turned away by 1 to 7, then 8, 12, 9, 10, 11 and 13. */
uint64_t hamstedew_run(const uint8_t *book, size_t book_length, const uint16_t *packet, size_t packet_length,
                       const uint8_t *schedule, size_t schedule_length, uint16_t *result, size_t result_length,
                       uint16_t *area, size_t area_length, uint64_t *progress, size_t progress_length);

#ifdef __cplusplus
}
#endif

#endif
