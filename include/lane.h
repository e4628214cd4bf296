/* The lane board for C: a store of versions under snapshot isolation, proved down to every word.
 *
 * Link the archive of the crate lane_c_c (target/staticlib/liblane_c.a, made by `./lane build`, x86-64 Linux).
 * The rules of the board are document 01's; docs/EMBEDDING.md shows a whole program.
 *
 * A board is two runs of 32-bit words that the caller owns:
 *
 *   the record, LANE_RECORD_WORDS words: for place i from 0 to 15
 *       word 3i      the state: 0 idle, 1 open, 2 spoiled, 3 prepared
 *       word 3i + 1  the transaction number
 *       word 3i + 2  the view
 *       word 48      the start count
 *       word 49      the commit count
 *   the cells, four words each, 1 to 1,024 of them: key plus 1 (0 marks an empty cell), value, transaction number,
 *       commit number (0 while uncommitted).
 *
 * A fresh board is all zeros in both. Every result below is fixed for every content and every length of these words,
 * so a caller may test nothing beforehand; a board out of shape is refused and left as it was.
 *
 * What a caller owes, and nothing else:
 *   - each pointer is valid for as many words or bytes as the length beside it says, is aligned for its type, and is
 *     not NULL, not even with length 0;
 *   - the parts lent to one call do not overlap each other;
 *   - nobody else writes to them, or reads those lent for writing, until the call is back. Two boards may be used by
 *     two threads; one board by one thread at a time.
 */
#ifndef LANE_H
#define LANE_H

#include <stddef.h>
#include <stdint.h>

#ifdef __cplusplus
extern "C" {
#endif

enum {
    LANE_RECORD_WORDS = 50,
    LANE_CELL_WORDS = 4,
    LANE_MAX_CELLS = 1024,
    LANE_PLACES = 16,
    LANE_KEYS = 256,
    LANE_CALL_BYTES = 10,
    LANE_ANSWER_BYTES = 8
};

/* The kinds of calls. */
enum lane_kind {
    LANE_START = 1,    /* place              gives the transaction number */
    LANE_READ = 2,     /* place, key         gives the value */
    LANE_UPDATE = 3,   /* place, key, value  gives 0 */
    LANE_PREPARE = 4,  /* place              gives 0 */
    LANE_COMMIT = 5,   /* place              gives the commit number */
    LANE_ROLLBACK = 6  /* place              gives 0 */
};

/* What comes back. Every refusal has value 0 and changes no word, but for CONFLICT, which sets the state of the
 * caller's place to spoiled: a rollback is accepted there, nothing else is. */
enum lane_answer {
    LANE_OK = 0,        /* done */
    LANE_BOARD = 1,     /* the board is not in shape */
    LANE_PLACE = 2,     /* place above 15 */
    LANE_BUSY = 3,      /* start at a place not idle */
    LANE_IDLE = 4,      /* another call at an idle place */
    LANE_WORN = 5,      /* start with the start count at 4,000,000,000 */
    LANE_SPOILED = 6,   /* read, update, prepare or commit on a spoiled transaction */
    LANE_HELD = 7,      /* read, update or prepare on a prepared one */
    LANE_KEY = 8,       /* key above 255 */
    LANE_CONFLICT = 9,  /* update of a key that another writer holds, or changed after the caller's view */
    LANE_PREPARED = 10, /* read of a key that a prepared writer holds */
    LANE_FULL = 11,     /* update with no cell empty or spent */
    LANE_RECORD = 12    /* a kind that is no call, or bytes that are no call record */
};

/* One call. The answer's number is in the upper 32 bits of the result, its value in the lower 32.
 *
 * A kind other than 1 to 6 is LANE_RECORD, before anything else is looked at; a record of other than 50 words, or with
 * a state word above 3, is LANE_BOARD. On both nothing changes. Key and value are passed over where the kind has none. */
uint64_t lane_call(uint32_t *record, size_t record_words, uint32_t *cells, size_t cell_words,
                   uint32_t kind, uint32_t place, uint32_t key, uint32_t value);

static inline uint32_t lane_number(uint64_t answer) { return (uint32_t)(answer >> 32); }
static inline uint32_t lane_value(uint64_t answer) { return (uint32_t)answer; }

/* Why lane_serve stopped. */
enum lane_why {
    LANE_END = 0,       /* fewer than ten bytes are left to take */
    LANE_NO_CALL = 1,   /* the next ten bytes are no call: LANE_RECORD with place 0 and value 0 was written for them */
    LANE_NO_ROOM = 2,   /* fewer than eight bytes are left to write the next answer in */
    LANE_NO_BOARD = 3   /* the record is not 50 words, or has a state word above 3: nothing was done */
};

struct lane_served {
    uint64_t taken;   /* bytes of the calls that were answered: a multiple of 10 */
    uint64_t written; /* bytes of answers written: a multiple of 8 */
    uint32_t why;     /* one of enum lane_why */
};

/* The call records in `calls`, one after the other, each answered by a record in `answers` with the call's place byte.
 *
 * Bytes of `answers` past `written` stay as they were. It stops at the first of: fewer than ten bytes left; no room for
 * one more answer; ten bytes that are no call, which are not counted as taken. */
struct lane_served lane_serve(uint32_t *record, size_t record_words, uint32_t *cells, size_t cell_words,
                              const uint8_t *calls, size_t call_bytes, uint8_t *answers, size_t answer_bytes);

#ifdef __cplusplus
}
#endif

#endif
