/* Tests of the calls on a table: made, cancelled, dropped, polled and counted; the largest table. */
#include "check.h"
#include "layout.h"

#include <string.h>

enum { PEERS = 2, HEADER_BYTES = 8, TX_BYTES = 32, RECORDS = 4, EXTRA = 3 };

/* Four lists: two of peer 1 and two of peer 2, opened in this order at the times 1000, 1001, 1002, 1003. */
static void make_open(struct table *table)
{
    table_make(table, (midici_pe_shape){PEERS, HEADER_BYTES, TX_BYTES, RECORDS}, EXTRA);
    check(table_new(table).refusal == 0, "a table is made", "setting up");
    open_one(table, 1, 11, 1000);
    open_one(table, 2, 21, 1001);
    open_one(table, 1, 12, 1002);
    open_one(table, 2, 22, 1003);
}

static void test_new(void)
{
    struct table table;
    table_make(&table, (midici_pe_shape){PEERS, HEADER_BYTES, TX_BYTES, RECORDS}, EXTRA);
    table_keep(&table);
    midici_pe_answer answer = table_new(&table);
    const uint64_t *numbers = lent_words(&table.lent[NUMBERS]), *index = lent_words(&table.lent[INDEX]);
    bool empty = numbers[CLOCK] == 1;
    for (size_t i = peer_at(0); i < peer_at(PEERS); i++)
        empty = empty && numbers[i] == ((i - peer_at(0)) % PEER_WORDS == MUID ? 0x0FFFFFFF : 0);
    for (size_t i = 0; i < SLOTS * PEERS * RECORDS; i++)
        empty = empty && index[i] == 0;
    check(answer.refusal == 0 && answer.value == 0 && answer.count == 0, "the answer", "new");
    check(empty, "the numbers and records of an empty table", "new");
    for (int slice = 0; slice < LENT; slice++) {
        bool is_written = slice == NUMBERS || slice == INDEX;
        size_t from = is_written ? shape_asks(table.shape, slice) : 0;
        check(lent_same_from(&table.lent[slice], from), "all else stays", "new");
    }
    check(table_guarded(&table), "nothing is written before a slice", "new");
    open_one(&table, 1, 11, 0);
    table_new(&table);
    check(table_open_list(&table).count == 0, "made again, the table is empty", "new");
    table_free(&table);
}

static void test_cancel(void)
{
    struct table table;
    make_open(&table);
    const struct {
        uint32_t peer;
        uint8_t request_id;
        uint64_t count, open;
    } cases[] = {{1, 13, 0, 4}, {3, 11, 0, 4}, {1, 255, 0, 4}, {1, 11, 1, 3}, {1, 11, 0, 3}, {2, 21, 1, 2}, {2, 22, 1, 1}};
    for (size_t i = 0; i < sizeof cases / sizeof cases[0]; i++) {
        table_keep(&table);
        midici_pe_answer answer = table_cancel(&table, cases[i].peer, cases[i].request_id);
        check(answer.refusal == 0 && answer.value == 0 && answer.count == cases[i].count, "was there one", "cancel");
        check(cases[i].count == 1 || table_same(&table), "without a match all stays", "cancel");
        model_cancel(&table, cases[i].peer, cases[i].request_id);
        check(table_same(&table), "the table is left as it should be", "cancel");
        check(table_guarded(&table), "nothing is written before a slice", "cancel");
        check(table_open_list(&table).count == cases[i].open, "so many lists are open", "cancel");
    }
    table_free(&table);
}

static void test_drop(void)
{
    struct table table;
    make_open(&table);
    const struct {
        uint32_t peer;
        uint64_t count, open;
    } cases[] = {{3, 0, 4}, {1, 2, 2}, {1, 0, 2}, {0x0FFFFFFF, 0, 2}, {2, 2, 0}};
    for (size_t i = 0; i < sizeof cases / sizeof cases[0]; i++) {
        table_keep(&table);
        midici_pe_answer answer = table_drop_peer(&table, cases[i].peer);
        check(answer.refusal == 0 && answer.value == 0 && answer.count == cases[i].count, "how many", "drop");
        check(cases[i].count > 0 || table_same(&table), "without a match all stays", "drop");
        model_drop_peer(&table, cases[i].peer);
        check(table_same(&table), "the table is left as it should be", "drop");
        check(table_guarded(&table), "nothing is written before a slice", "drop");
        check(table_open_list(&table).count == cases[i].open, "so many lists are open", "drop");
    }
    open_one(&table, 3, 1, 0);
    open_one(&table, 4, 1, 0);
    check(table_open_list(&table).count == 2, "the records are free for others", "drop");
    table_free(&table);
}

/* A poll, and which of the four lists it closes, in order. */
static void check_poll(struct table *table, uint64_t now_ms, uint64_t count, const uint64_t *peers, const uint64_t *ids)
{
    table_keep(table);
    midici_pe_answer answer = table_poll(table, now_ms);
    check(answer.refusal == 0 && answer.value == 0 && answer.count == count, "how many are closed", "poll");
    for (uint64_t i = 0; i < count; i++) {
        check(lent_words(&table->lent[OUT_PEERS])[i] == peers[i], "whose", "poll");
        check(lent_words(&table->lent[OUT_REQUEST_IDS])[i] == ids[i], "which", "poll");
    }
    check(lent_same_from(&table->lent[OUT_PEERS], 8 * count), "places past the count stay", "poll");
    check(lent_same_from(&table->lent[OUT_REQUEST_IDS], 8 * count), "places past the count stay", "poll");
    check(count > 0 || table_same(table), "without a match all stays", "poll");
    model_poll(table, now_ms);
    check(table_same(table), "the table is left as it should be", "poll");
    check(table_guarded(table), "nothing is written before a slice", "poll");
}

static void test_poll(void)
{
    struct table table;
    const uint64_t peers[] = {1, 2, 1, 2}, ids[] = {11, 21, 12, 22};
    make_open(&table);
    check_poll(&table, 3999, 0, NULL, NULL);
    check_poll(&table, 500, 0, NULL, NULL);
    check_poll(&table, 4001, 2, peers, ids);
    check_poll(&table, 4001, 0, NULL, NULL);
    check_poll(&table, UINT64_MAX, 2, peers + 2, ids + 2);
    open_one(&table, 1, 11, UINT64_MAX);
    check_poll(&table, UINT64_MAX, 0, NULL, NULL);
    check_poll(&table, 0, 0, NULL, NULL);
    table_free(&table);
    make_open(&table);
    struct bytes duplicate = chunk_of((struct fields){11, "HD", 2, 1, "abc"});
    check(table_feed(&table, 1, duplicate.at, duplicate.len, 2000).refusal == 8, "a duplicate is refused", "poll");
    check_poll(&table, 4999, 3, peers + 1, ids + 1);
    check_poll(&table, 5000, 1, peers, ids);
    table_free(&table);
}

/* A chunk above the known count keeps its list from being closed, one above its own count does not: it never reached it. */
static void test_poll_strays(void)
{
    struct table table;
    const uint64_t peers[] = {2, 2, 1, 1}, ids[] = {21, 22, 12, 11};
    struct bytes above_known = chunk_of((struct fields){11, "", 0, 3, "x"}),
                 above_own = chunk_of((struct fields){21, "", 2, 3, "x"});
    make_open(&table);
    struct bytes again = chunk_of((struct fields){12, "", 0, 16383, "x"});
    check(table_feed(&table, 1, again.at, again.len, 1500).refusal == 8, "above the known count", "poll");
    check(table_feed(&table, 1, above_known.at, above_known.len, 2000).refusal == 8, "above the known count", "poll");
    check(table_feed(&table, 2, above_own.at, above_own.len, 2000).refusal == 8, "above its own count", "poll");
    check_poll(&table, 4002, 1, peers, ids);
    check_poll(&table, 4499, 1, peers + 1, ids + 1);
    check_poll(&table, 5000, 2, peers + 2, ids + 2);
    table_free(&table);
}

/* The clock goes back between two chunks: the order is that of the chunks, and a list whose time lies ahead stays. */
static void test_poll_back(void)
{
    struct table table;
    const uint64_t peers[] = {1, 2}, ids[] = {11, 21};
    table_make(&table, (midici_pe_shape){PEERS, HEADER_BYTES, TX_BYTES, RECORDS}, EXTRA);
    table_new(&table);
    open_one(&table, 1, 11, 5000);
    open_one(&table, 2, 21, 1000);
    open_one(&table, 1, 12, 20000);
    check_poll(&table, 10000, 2, peers, ids);
    check(table_open_list(&table).count == 1, "the list whose time lies ahead stays", "poll");
    table_free(&table);
}

static void test_totals(void)
{
    struct table table;
    make_open(&table);
    const uint64_t rooms = 4 * PEERS * (HEADER_BYTES + TX_BYTES + 8 * RECORDS);
    table_keep(&table);
    midici_pe_answer reserved = table_reserved_bytes(&table);
    check(reserved.refusal == 0 && reserved.value == 0 && reserved.count == rooms, "the rooms", "totals");
    midici_pe_stats stats = table_memory_stats(&table);
    check(stats.refusal == 0 && stats.value == 0 && stats.reserved_bytes == rooms, "the rooms again", "totals");
    check(stats.active_slots == 4 && stats.active_bytes == 4 * (2 + 3 + 8), "what is open", "totals");
    check(table_same(&table), "nothing is written", "totals");
    table_free(&table);
}

/* Stored numbers of one open list, taken as they are, and their total, which holds at the largest number. */
static void test_large_totals(void)
{
    const struct {
        uint64_t header_len, index_len, property_bytes, total;
    } cases[] = {
        {3, 2, 5, 24},
        {0, UINT64_MAX / 8, 0, UINT64_MAX - 7},
        {0, UINT64_MAX / 8, 7, UINT64_MAX},
        {8, UINT64_MAX / 8, 0, UINT64_MAX},
        {0, UINT64_MAX / 8 + 1, 0, UINT64_MAX},
        {UINT64_MAX, 0, 0, UINT64_MAX},
        {UINT64_MAX - 1, 0, 1, UINT64_MAX},
        {UINT64_MAX - 2, 0, 1, UINT64_MAX - 1},
        {UINT64_MAX, UINT64_MAX, UINT64_MAX, UINT64_MAX},
    };
    struct table table;
    table_make(&table, (midici_pe_shape){1, HEADER_BYTES, TX_BYTES, RECORDS}, 0);
    table_new(&table);
    open_one(&table, 1, 1, 0);
    uint64_t *slot = lent_words(&table.lent[NUMBERS]) + slot_at(0, 0);
    for (size_t i = 0; i < sizeof cases / sizeof cases[0]; i++) {
        slot[HEADER_LEN] = cases[i].header_len;
        slot[INDEX_LEN] = cases[i].index_len;
        slot[PROPERTY_BYTES] = cases[i].property_bytes;
        check(table_memory_stats(&table).active_bytes == cases[i].total, "the bytes of an open list", "large totals");
    }
    table_free(&table);
}

/* The rooms of tables of other shapes. */
static void test_reserved_bytes(void)
{
    const struct {
        midici_pe_shape shape;
        uint64_t bytes;
    } cases[] = {
        {{0, 4096, 65536, 2048}, 0}, {{16, 4096, 65536, 2048}, 5505024},
        {{1, 0, 0, 0}, 0},           {{3, 1, 0, 0}, 12},
        {{3, 0, 1, 0}, 12},          {{3, 0, 0, 1}, 96},
    };
    for (size_t i = 0; i < sizeof cases / sizeof cases[0]; i++) {
        midici_pe_answer answer = midici_pe_reserved_bytes(cases[i].shape);
        check(answer.refusal == 0 && answer.count == cases[i].bytes, "the rooms", "reserved bytes");
    }
}

/* The clock of ticks holds at the largest number. */
static void test_ticks(void)
{
    struct table table;
    table_make(&table, (midici_pe_shape){PEERS, HEADER_BYTES, TX_BYTES, RECORDS}, 0);
    table_new(&table);
    const uint64_t *numbers = lent_words(&table.lent[NUMBERS]);
    open_one(&table, 1, 11, 0);
    check(numbers[CLOCK] == 2 && numbers[slot_at(0, 0) + LRU_TICK] == 2, "the first tick is 2", "ticks");
    lent_words(&table.lent[NUMBERS])[CLOCK] = UINT64_MAX - 1;
    open_one(&table, 1, 12, 0);
    check(numbers[CLOCK] == UINT64_MAX && numbers[slot_at(0, 1) + LRU_TICK] == UINT64_MAX, "the largest tick", "ticks");
    open_one(&table, 1, 13, 0);
    check(numbers[CLOCK] == UINT64_MAX && numbers[slot_at(0, 2) + LRU_TICK] == UINT64_MAX, "which holds", "ticks");
    table_free(&table);
}

/* Seventeen chunks at full size, the last one first: 16 of 4,096 bytes, and chunk 1 with `first` bytes. */
static void feed_full(struct table *table, uint32_t peer, size_t first, uint8_t refusal)
{
    static uint8_t property[4096];
    for (unsigned n = 17; n >= 1; n--) {
        struct bytes chunk = {.len = 0};
        size_t len = n == 1 ? first : 4096;
        memset(property, (int)n, sizeof property);
        add_byte(&chunk, 5);
        add_u14(&chunk, 0);
        add_u14(&chunk, 17);
        add_u14(&chunk, n);
        add_u14(&chunk, (unsigned)len);
        add_bytes(&chunk, property, len);
        midici_pe_fed answer = table_feed(table, peer, chunk.at, chunk.len, 0);
        if (n > 1)
            check(answer.refusal == 0 && answer.whole == 0, "waiting", "full size");
        else
            check(answer.refusal == refusal && answer.whole == (refusal == 0) &&
                      answer.body_len == (refusal == 0 ? 65536 : 0),
                  "65,536 bytes and no more", "full size");
    }
}

static void test_full_size(void)
{
    struct table table;
    const midici_pe_shape largest = {MIDICI_PE_MAX_PEERS, MIDICI_PE_HEADER_BYTES, MIDICI_PE_TX_BYTES,
                                     MIDICI_PE_FRAGMENT_RECORDS};
    table_make(&table, largest, 0);
    check(table_new(&table).refusal == 0, "the largest table", "full size");
    for (uint32_t peer = 0; peer < 16; peer++)
        for (uint8_t id = 0; id < 4; id++)
            open_one(&table, peer, id, peer);
    check(table_open_list(&table).count == 64, "64 lists are open", "full size");
    check(table_poll(&table, 3000).count == 4, "those of the first peer", "full size");
    check(table_poll(&table, 4000).count == 60, "all others", "full size");
    feed_full(&table, 77, 0, 0);
    const uint8_t *body = table.lent[OUT_BODY].at;
    check(body[0] == 2 && body[4095] == 2 && body[4096] == 3 && body[65535] == 17, "the body", "full size");
    feed_full(&table, 78, 1, 5);
    check(table_open_list(&table).count == 0, "65,537 bytes close the list", "full size");
    check(table_guarded(&table), "nothing is written before a slice", "full size");
    table_free(&table);
}

/* As many chunks of one byte as a list can hold, the last one first. With a gap their numbers above the count are every
 * other one: since calls leave no such list, the count is then written into the table's memory, before the last chunk. */
static void test_most_chunks(bool gap)
{
    enum { MOST = MIDICI_PE_FRAGMENT_RECORDS, COUNT = 100, BYTES = 113 };
    const char *of = gap ? "most chunks, with gaps" : "most chunks";
    struct table table;
    midici_pe_fed answer = {.whole = 0};
    table_make(&table, (midici_pe_shape){1, 0, MIDICI_PE_TX_BYTES, MOST}, 0);
    table_new(&table);
    for (unsigned n = MOST; n >= 1; n--) {
        struct bytes chunk = {.len = 0};
        check(answer.refusal == 0 && answer.whole == 0, "waiting", of);
        add_byte(&chunk, 5);
        add_u14(&chunk, 0);
        add_u14(&chunk, gap ? 0 : MOST);
        add_u14(&chunk, gap && n > COUNT ? 2 * n : n);
        add_u14(&chunk, 1);
        add_byte(&chunk, n % BYTES);
        if (gap && n == 1)
            lent_words(&table.lent[NUMBERS])[slot_at(0, 0) + NUM_CHUNKS] = COUNT;
        answer = table_feed(&table, 7, chunk.at, chunk.len, 0);
    }
    check(answer.whole == 1 && answer.body_len == MOST, "whole with the last", of);
    bool in_order = true;
    for (unsigned n = 1; n <= MOST; n++)
        in_order = in_order && table.lent[OUT_BODY].at[n - 1] == n % BYTES;
    check(in_order, "joined in the order of numbers", of);
    check(table_guarded(&table), "nothing is written before a slice", of);
    table_free(&table);
}

void test_table_calls(void)
{
    test_new();
    test_cancel();
    test_drop();
    test_poll();
    test_poll_strays();
    test_poll_back();
    test_totals();
    test_large_totals();
    test_reserved_bytes();
    test_ticks();
    test_full_size();
    test_most_chunks(false);
    test_most_chunks(true);
}
