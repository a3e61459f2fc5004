/* Checks that are counted, and chunks and messages written byte by byte, without the library. */
#ifndef CHECK_H
#define CHECK_H

#include "stage.h"

/* One check. `what` says what should hold, `of` in which case. */
void check(bool holds, const char *what, const char *of);

/* Prints how many checks were made; the exit status of a program of them. */
int checks_done(void);

/* A chunk or a message, as bytes. */
struct bytes {
    size_t len;
    uint8_t at[MIDICI_PE_MESSAGE_LEN];
};

/* The fields of a chunk; header and property as text. */
struct fields {
    uint8_t request_id;
    const char *header;
    unsigned num_chunks, chunk_num;
    const char *property;
};

void add_byte(struct bytes *bytes, unsigned byte);
void add_u14(struct bytes *bytes, unsigned number);
void add_muid(struct bytes *bytes, uint32_t muid);
void add_bytes(struct bytes *bytes, const void *from, size_t len);

/* Makes a slice `len` letters long, the last of them `last` unless that is 0; NULL where it has no byte. */
void fill_letters(struct lent *lent, size_t len, uint8_t last);

/* The next of a row of numbers that look random, below `below`. The seed is not 0. */
size_t any_below(uint64_t *seed, size_t below);

struct bytes chunk_of(struct fields fields);
struct bytes message_of(uint8_t sub_id2, uint32_t source, uint32_t dest, const struct bytes *chunk);

/* Makes a table of 2 peers with room for headers of 8 bytes, bodies of 32 and 4 chunks. Peer 1 has one list open, with
 * request id 5, and two of its three chunks are there: FIRST, and one of two bytes. */
extern const struct fields FIRST;
void make_begun(struct table *table);

/* Opens a list: one of its two chunks, the first, is there. */
void open_one(struct table *table, uint32_t peer, uint8_t request_id, uint64_t now_ms);

/* Checks a refusal that leaves the table as it was kept. */
void check_refused(const struct table *table, midici_pe_fed answer, uint8_t refusal, uint8_t value, const char *of);

/* Makes a call on a stage, and checks that its answer and what it leaves are the model's; its answer. */
struct told check_stage_call(struct stage *stage, int call, const struct joining *joining, const char *of);

/* Checks that the output of a turn begins with this chunk of a list, as it is cut alone, `len` bytes long. */
void check_stage_chunk(const struct stage *stage, midici_pe_outgoing list, uint64_t chunk_num, uint64_t len,
                       const char *of);

/* The tests, by subject. Those with a seed make random calls. */
void test_sending(void);
void test_splitting(uint64_t seed);
void test_stage(void);
void test_stage_runs(uint64_t seed);
void test_feeding(void);
void test_table_calls(void);
void test_open_list(void);
void test_table_runs(uint64_t seed);
void test_unreadable(void);
void test_lent_memory(void);
void test_files(void);
void test_header_find(void);

#endif
