/* How the memory of a table and of a stage is laid out: what the tests know of it beyond the header, in one place.
 *
 * `numbers` is the clock, and then for each peer a record: bound, MUID, and four slots (open lists). `index` has the same
 * number of records of chunks for each slot: chunk number, length and offset in one word.
 *
 * `stage` is the turn (the place that is asked first), and then the words of each place. */
#ifndef LAYOUT_H
#define LAYOUT_H

#include <stddef.h>
#include <stdint.h>

/* The words of a slot. */
enum {
    ACTIVE,
    REQUEST_ID,
    LAST_ACTIVITY_MS,
    LRU_TICK,
    NUM_CHUNKS,
    HEADER_SET,
    HEADER_LEN,
    INDEX_LEN,
    PROPERTY_BYTES,
    SLOT_WORDS
};

/* The words of a peer record, before its slots. */
enum { BOUND, MUID, PEER_OWN_WORDS };

enum { CLOCK = 0, CLOCK_WORDS = 1, SLOTS = 4, PEER_WORDS = PEER_OWN_WORDS + SLOTS * SLOT_WORDS };

/* Where record p begins in `numbers`, and where slot s of it begins. */
static inline size_t peer_at(size_t p) { return CLOCK_WORDS + PEER_WORDS * p; }

static inline size_t slot_at(size_t p, size_t s) { return peer_at(p) + PEER_OWN_WORDS + SLOT_WORDS * s; }

/* Where the part of slot s of record p begins in `index`, `headers` or `arenas`, in which each slot has `size` elements. */
static inline size_t room_at(size_t size, size_t p, size_t s) { return (SLOTS * p + s) * size; }

/* The record of a chunk. */
#define RECORD(number, len, offset) (((uint64_t)(offset)*65536 + (len)) * 65536 + (number))

static inline uint64_t record_number(uint64_t record) { return record % 65536; }

static inline uint64_t record_len(uint64_t record) { return record / 65536 % 65536; }

static inline uint64_t record_offset(uint64_t record) { return record / 65536 / 65536; }

/* The words of a place of a stage: the list, and the number of the chunk that leaves next, 0 where nobody waits. */
enum {
    LIST_HEADER_AT,
    LIST_HEADER_LEN,
    LIST_BODY_AT,
    LIST_BODY_LEN,
    LIST_REQUEST_ID,
    LIST_MAX_SYSEX,
    NEXT_CHUNK,
    PLACE_WORDS
};

enum { TURN = 0, TURN_WORDS = 1 };

/* Where place p begins in `stage`. */
static inline size_t place_at(size_t p) { return TURN_WORDS + PLACE_WORDS * p; }

#endif
