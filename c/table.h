/* A table of lent slices, each call on it, and what the model says of each call.
 *
 * The model restates in C, from the requirement, question by question, what the calls should answer and leave, for memory
 * of any contents. Its functions work on the kept copies of the slices, in the place of a call on the slices themselves. */
#ifndef TABLE_H
#define TABLE_H

#include "lent.h"
#include "midici_pe.h"

/* A table's shape, its memory and the outputs of its calls. */
enum { NUMBERS, INDEX, HEADERS, ARENAS, OUT_HEADER, OUT_BODY, OUT_PEERS, OUT_REQUEST_IDS, OUT_CHUNKS_HELD, LENT };

struct table {
    midici_pe_shape shape;
    struct lent lent[LENT];
};

/* Is a shape in range? */
bool shape_in_range(midici_pe_shape shape);

/* How many bytes a shape that is in range asks of a slice. */
size_t shape_asks(midici_pe_shape shape, int slice);

/* All slices of a table at once. */
void table_make(struct table *table, midici_pe_shape shape, size_t extra_elements);
void table_free(struct table *table);
void table_keep(struct table *table);
bool table_same(const struct table *table);
bool table_guarded(const struct table *table);

/* Is the slice one of uint64_t? */
bool table_has_words(int slice);

/* ---- The calls, each lent its slices of the table ---- */

#define BYTES(t, slice) t->lent[slice].at, t->lent[slice].len
#define WORDS(t, slice) lent_words(&t->lent[slice]), t->lent[slice].len / 8
#define MEMORY(t) WORDS(t, NUMBERS), WORDS(t, INDEX), BYTES(t, HEADERS), BYTES(t, ARENAS)

midici_pe_answer model_new(struct table *table);
static inline midici_pe_answer table_new(struct table *table) { return midici_pe_new(table->shape, MEMORY(table)); }

midici_pe_fed model_feed(struct table *table, uint32_t peer, const struct lent *raw_chunk, uint64_t now_ms);
static inline midici_pe_fed table_feed(struct table *table, uint32_t peer, const uint8_t *raw_chunk, size_t raw_chunk_len,
                                       uint64_t now_ms)
{
    return midici_pe_feed(table->shape, MEMORY(table), peer, raw_chunk, raw_chunk_len, now_ms, BYTES(table, OUT_HEADER),
                          BYTES(table, OUT_BODY));
}

midici_pe_fed model_feed_message(struct table *table, const struct lent *body, uint64_t now_ms);
static inline midici_pe_fed table_feed_message(struct table *table, const uint8_t *body, size_t body_len, uint64_t now_ms)
{
    return midici_pe_feed_message(table->shape, MEMORY(table), body, body_len, now_ms, BYTES(table, OUT_HEADER),
                                  BYTES(table, OUT_BODY));
}

midici_pe_answer model_cancel(struct table *table, uint32_t peer, uint8_t request_id);
static inline midici_pe_answer table_cancel(struct table *table, uint32_t peer, uint8_t request_id)
{
    return midici_pe_cancel(table->shape, WORDS(table, NUMBERS), peer, request_id);
}

midici_pe_answer model_drop_peer(struct table *table, uint32_t peer);
static inline midici_pe_answer table_drop_peer(struct table *table, uint32_t peer)
{
    return midici_pe_drop_peer(table->shape, WORDS(table, NUMBERS), peer);
}

midici_pe_answer model_poll(struct table *table, uint64_t now_ms);
static inline midici_pe_answer table_poll(struct table *table, uint64_t now_ms)
{
    return midici_pe_poll(table->shape, WORDS(table, NUMBERS), now_ms, WORDS(table, OUT_PEERS),
                          WORDS(table, OUT_REQUEST_IDS));
}

midici_pe_answer model_open_list(struct table *table);
static inline midici_pe_answer table_open_list(struct table *table)
{
    return midici_pe_open_list(table->shape, WORDS(table, NUMBERS), WORDS(table, OUT_PEERS), WORDS(table, OUT_REQUEST_IDS),
                               WORDS(table, OUT_CHUNKS_HELD));
}

midici_pe_stats model_memory_stats(struct table *table);
static inline midici_pe_stats table_memory_stats(struct table *table)
{
    return midici_pe_memory_stats(table->shape, WORDS(table, NUMBERS));
}

midici_pe_answer model_reserved_bytes(struct table *table);
static inline midici_pe_answer table_reserved_bytes(struct table *table) { return midici_pe_reserved_bytes(table->shape); }

/* ---- A row for each call ---- */

/* What a call is given besides the table. Each takes what it needs of it. */
struct given {
    uint32_t peer;
    uint8_t request_id;
    uint64_t now_ms;
    const struct lent *bytes;
};

/* The most numbers that a call answers behind refusal and value. */
enum { MOST_TOLD = 5 };

/* What a call answers: these numbers in their order, and 0 for those that it has not. */
struct told {
    uint8_t refusal, value;
    uint64_t numbers[MOST_TOLD];
};

enum given_bytes { NO_BYTES, A_CHUNK, A_MESSAGE };

/* The call and its model, the slices that it is lent (a bit each), the bytes that it is given, and what it answers on a
 * table of no peers and to a peer above 28 bits (or to five bytes in place of a message). The first row is that of new; one
 * without a name is the last. */
struct call {
    const char *name;
    struct told (*made)(struct table *, const struct given *);
    struct told (*model)(struct table *, const struct given *);
    int lent;
    enum given_bytes bytes;
    uint8_t no_peers, wrong_peer;
};
extern const struct call calls[];

/* Is the one answer the other? */
bool told_same(struct told a, struct told b);

/* ---- The model of what has no table ---- */

midici_pe_answer model_chunk_count(uint8_t request_id, const struct lent *header, const struct lent *body,
                                   uint32_t max_sysex);
midici_pe_cut model_split(uint8_t request_id, const struct lent *header, const struct lent *body, uint32_t max_sysex,
                          struct lent *out, struct lent *lengths);
midici_pe_answer model_split_chunk(uint8_t request_id, const struct lent *header, const struct lent *body,
                                   uint32_t max_sysex, uint16_t chunk_num, struct lent *out);
midici_pe_answer model_encode_message(uint8_t sub_id2, uint32_t source, uint32_t dest, uint8_t request_id,
                                      const struct lent *header, uint16_t num_chunks, uint16_t chunk_num,
                                      const struct lent *property, struct lent *out);
midici_pe_syx model_syx_list(const struct lent *file, struct lent *places, struct lent *lengths);
midici_pe_found model_header_find(const struct lent *header, const struct lent *name);

#endif
