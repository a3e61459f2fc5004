/* Tests of shapes and of what is lent: slices that are too short or NULL, and damaged memory. */
#include "check.h"
#include "layout.h"

enum { HEADER_BYTES = 8, TX_BYTES = 32, RECORDS = 4 }; /* of make_begun's table */

/* Makes a call with a chunk, a message and a peer that are right, or that would be refused too: its refusal. With a refusal
 * every other field must be 0. */
static uint8_t refusal_of(const struct call *call, struct table *table, bool wrong)
{
    struct bytes chunk = chunk_of((struct fields){wrong ? 0x80 : 5, "", 3, 3, "f"});
    struct bytes message = message_of(0x35, 1, 9, &chunk), *given = call->bytes == A_MESSAGE ? &message : &chunk;
    struct lent bytes = {.at = given->at, .len = wrong ? 5 : given->len};
    struct told told = call->made(
        table, &(struct given){.peer = wrong ? UINT32_MAX : 1, .request_id = 5, .now_ms = 1000, .bytes = &bytes});
    check(told.refusal == 0 || told_same(told, (struct told){.refusal = told.refusal}), "with a refusal all else is 0",
          call->name);
    return told.refusal;
}

/* A slice one element short, or NULL: 30 where the call is lent it, and nothing otherwise. */
static void test_short_slice(const struct call *call, int slice)
{
    for (int null = 0; null < 2; null++) {
        struct table table;
        make_begun(&table);
        struct lent *lent = &table.lent[slice];
        if (null)
            lent_null(lent);
        else
            lent_resize(lent, lent->len - (table_has_words(slice) ? 8 : 1));
        table_keep(&table);
        if (call->lent >> slice & 1) {
            check(refusal_of(call, &table, true) == 30, "a short slice is refused before all else", call->name);
            check(table_same(&table), "everything stays", call->name);
        } else {
            check(refusal_of(call, &table, false) == 0, "a slice that is not lent does not matter", call->name);
        }
        check(table_guarded(&table), "nothing is written before a slice", call->name);
        table_free(&table);
    }
}

/* Each number of the shape one above its range, and the largest there is. */
static void test_shape(const struct call *call, int which, bool largest)
{
    const size_t most[4] = {MIDICI_PE_MAX_PEERS, MIDICI_PE_HEADER_BYTES, MIDICI_PE_TX_BYTES, MIDICI_PE_FRAGMENT_RECORDS};
    struct table table;
    make_begun(&table);
    midici_pe_shape *shape = &table.shape;
    size_t *numbers[4] = {&shape->max_peers, &shape->header_bytes, &shape->tx_bytes, &shape->fragment_records};
    *numbers[which] = largest ? SIZE_MAX : most[which] + 1;
    table_keep(&table);
    check(refusal_of(call, &table, true) == 30, "a shape out of range is refused before all else", call->name);
    check(table_same(&table), "everything stays", call->name);
    check(table_guarded(&table), "nothing is written before a slice", call->name);
    table_free(&table);
}

static void test_shapes_and_slices(const struct call *call)
{
    for (int slice = 0; slice < LENT; slice++)
        test_short_slice(call, slice);
    for (int which = 0; which < 4; which++) {
        test_shape(call, which, false);
        test_shape(call, which, true);
    }
}

/* A peer above 28 bits is refused with 28 by the calls that are given one. */
static void test_wrong_peer(const struct call *call)
{
    struct table table;
    make_begun(&table);
    table_keep(&table);
    if (call->wrong_peer != 0) {
        check(refusal_of(call, &table, true) == call->wrong_peer, "a wrong peer, or no message", call->name);
        check(table_same(&table), "everything stays", call->name);
    }
    check(table_cancel(&table, MIDICI_PE_MUID_MAX + 1, 5).refusal == 28, "28 at the least such number", "cancel");
    check(table_drop_peer(&table, MIDICI_PE_MUID_MAX + 1).refusal == 28, "28 at the least such number", "drop_peer");
    check(table_same(&table), "everything stays", "a peer above 28 bits");
    table_free(&table);
}

/* A table of no peers takes one number, and every other slice may be NULL. */
static void test_no_peers(const struct call *call)
{
    struct table table;
    table_make(&table, (midici_pe_shape){0, 0, 0, 0}, 0);
    for (int slice = INDEX; slice < LENT; slice++)
        lent_null(&table.lent[slice]);
    check(table_new(&table).refusal == 0, "a table of no peers is made", call->name);
    table_keep(&table);
    check(refusal_of(call, &table, false) == call->no_peers, "it answers", call->name);
    check(table_same(&table), "everything stays", call->name);
    lent_null(&table.lent[NUMBERS]);
    check(refusal_of(call, &table, false) == (call->lent == 0 ? 0 : 30), "no number", call->name);
    table_free(&table);
}

/* NULL for every slice of length 0, of the calls that have no table. */
static void test_nothing(void)
{
    uint8_t out[22];
    uint16_t length = 0;
    midici_pe_answer answer = midici_pe_chunk_count(5, NULL, 0, NULL, 0, 256);
    check(answer.refusal == 0 && answer.count == 1, "one chunk", "a list of nothing");
    check(midici_pe_split_chunk(5, NULL, 0, NULL, 0, 256, 1, NULL, 0).refusal == 3, "no output", "a list of nothing");
    answer = midici_pe_split_chunk(5, NULL, 0, NULL, 0, 256, 1, out, sizeof out);
    check(answer.refusal == 0 && answer.count == 9, "nine bytes", "a list of nothing");
    check(midici_pe_split(5, NULL, 0, NULL, 0, 256, NULL, 0, NULL, 0).refusal == 3, "no outputs", "a list of nothing");
    check(midici_pe_split(5, NULL, 0, NULL, 0, 256, NULL, 0, &length, 1).refusal == 3, "no output", "a list of nothing");
    check(midici_pe_split(5, NULL, 0, NULL, 0, 256, out, sizeof out, NULL, 0).refusal == 3, "no length",
          "a list of nothing");
    midici_pe_cut cut = midici_pe_split(5, NULL, 0, NULL, 0, 256, out, sizeof out, &length, 1);
    check(cut.refusal == 0 && cut.chunks == 1 && cut.bytes == 9 && length == 9, "nine bytes at once", "a list of nothing");
    answer = midici_pe_encode_message(0x34, 1, 2, 5, NULL, 0, 1, 1, NULL, 0, out, sizeof out);
    check(answer.refusal == 0 && answer.count == 22, "22 bytes", "a message of nothing");
    answer = midici_pe_encode_message(0x34, 1, 2, 5, NULL, 0, 1, 1, NULL, 0, NULL, 0);
    check(answer.refusal == 3, "no output", "a message of nothing");
}

/* The longest chunk behind a CI header is the longest message, and can be read. */
static void test_longest(void)
{
    static uint8_t body[MIDICI_PE_CHUNK_LEN], out[MIDICI_PE_MESSAGE_LEN];
    struct table table;
    midici_pe_encode_message(0x34, 1, MIDICI_PE_MUID_MAX, 5, NULL, 0, 1, 1, NULL, 0, out, sizeof out);
    midici_pe_answer cut = midici_pe_split_chunk(5, NULL, 0, body, sizeof body, UINT32_MAX, 1,
                                                 out + MIDICI_PE_CI_HEADER_LEN, sizeof out - MIDICI_PE_CI_HEADER_LEN);
    check(cut.refusal == 0 && cut.count == MIDICI_PE_CHUNK_LEN, "the longest chunk", "lengths");
    table_make(&table, (midici_pe_shape){1, 0, MIDICI_PE_CHUNK_LEN, 1}, 0);
    table_new(&table);
    midici_pe_fed fed = table_feed_message(&table, out, sizeof out, 0);
    check(fed.refusal == 0 && fed.whole == 0, "the longest message is taken", "lengths");
    table_free(&table);
}

/* A table without rooms for headers and bodies: the slices are NULL, and an empty list is whole. */
static void test_no_rooms(void)
{
    struct table table;
    const uint8_t empty[9] = {5, 0, 0, 1, 0, 1, 0, 0, 0};
    table_make(&table, (midici_pe_shape){1, 0, 0, 1}, 0);
    for (int slice = HEADERS; slice <= OUT_BODY; slice++)
        lent_null(&table.lent[slice]);
    check(table_new(&table).refusal == 0, "a table without rooms is made", "no rooms");
    midici_pe_fed answer = table_feed(&table, 1, empty, sizeof empty, 0);
    check(answer.refusal == 0 && answer.whole == 1 && answer.header_len == 0 && answer.body_len == 0, "whole", "no rooms");
    struct bytes chunk = chunk_of((struct fields){5, "H", 1, 1, ""});
    check(table_feed(&table, 1, chunk.at, chunk.len, 0).refusal == 4, "no room for a header", "no rooms");
    chunk = chunk_of((struct fields){6, "", 1, 1, "x"});
    check(table_feed(&table, 1, chunk.at, chunk.len, 0).refusal == 5, "no room for a body", "no rooms");
    check(table_guarded(&table), "nothing is written before a slice", "no rooms");
    table_free(&table);
    table_make(&table, (midici_pe_shape){1, 0, 0, 0}, 0);
    for (int slice = INDEX; slice <= OUT_BODY; slice++)
        lent_null(&table.lent[slice]);
    check(table_new(&table).refusal == 0, "a table without records is made", "no rooms");
    check(table_feed(&table, 1, empty, sizeof empty, 0).refusal == 5, "no room for a chunk", "no rooms");
    table_free(&table);
}

/* One word of a slot, or of its first record, put wrong; slot 0 is open with two chunks, slot 1 is free. */
static const struct damage {
    const char *name;
    int slot, word; /* word -1: the first record, -2: the second one */
    uint64_t value;
    uint8_t refusal;
} damages[] = {
    {"nothing", 0, ACTIVE, 1, 0},
    {"active, another way", 0, ACTIVE, UINT64_MAX, 0},
    {"header as long as its room", 0, HEADER_LEN, HEADER_BYTES, 0},
    {"header longer than its room", 0, HEADER_LEN, HEADER_BYTES + 1, 31},
    {"largest header", 0, HEADER_LEN, UINT64_MAX, 31},
    {"one record less", 0, INDEX_LEN, 1, 31},
    {"one record more", 0, INDEX_LEN, 3, 31},
    {"more records than there are", 0, INDEX_LEN, RECORDS + 1, 31},
    {"largest number of records", 0, INDEX_LEN, UINT64_MAX, 31},
    {"body too short", 0, PROPERTY_BYTES, 4, 31},
    {"body too long", 0, PROPERTY_BYTES, 6, 31},
    {"body longer than its room", 0, PROPERTY_BYTES, TX_BYTES + 1, 31},
    {"largest body", 0, PROPERTY_BYTES, UINT64_MAX, 31},
    {"first record does not begin at 0", 0, -1, RECORD(1, 3, 1), 31},
    {"first record has another length", 0, -1, RECORD(1, 2, 0), 31},
    {"second record leaves a gap", 0, -2, RECORD(2, 2, 4), 31},
    {"second record has another length", 0, -2, RECORD(2, 3, 3), 31},
    {"largest record", 0, -2, UINT64_MAX, 31},
    {"second record above the count", 0, -2, RECORD(9, 2, 3), 0},
    {"no count", 0, NUM_CHUNKS, 0, 0},
    {"count below the chunk's number", 0, NUM_CHUNKS, 2, 8},
    {"largest count", 0, NUM_CHUNKS, UINT64_MAX, 8},
    {"free, with a header", 1, HEADER_LEN, 1, 31},
    {"free, with a record", 1, INDEX_LEN, 1, 31},
    {"free, with a body", 1, PROPERTY_BYTES, 1, 31},
    {"free, with a count", 1, NUM_CHUNKS, 7, 8},
};

/* The damaged slot answers 31, and every other call takes the numbers as they are. */
static void test_damage(const struct damage *damage)
{
    struct table table;
    make_begun(&table);
    if (damage->word < 0)
        lent_words(&table.lent[INDEX])[-1 - damage->word] = damage->value;
    else
        lent_words(&table.lent[NUMBERS])[slot_at(0, damage->slot) + damage->word] = damage->value;
    struct bytes chunk = chunk_of((struct fields){damage->slot == 0 ? 5 : 6, "", 3, 3, "f"});
    struct bytes message = message_of(0x35, 1, 9, &chunk);
    table_keep(&table);
    if (damage->refusal == 31) {
        check_refused(&table, table_feed(&table, 1, chunk.at, chunk.len, 9999), 31, 0, damage->name);
        check_refused(&table, table_feed_message(&table, message.at, message.len, 9999), 31, 0, damage->name);
    } else {
        struct lent raw = {.at = chunk.at, .len = chunk.len};
        check(table_feed(&table, 1, chunk.at, chunk.len, 9999).refusal == damage->refusal, "no 31", damage->name);
        model_feed(&table, 1, &raw, 9999);
        check(table_same(&table), "the table is left as it should be", damage->name);
    }
    check(table_memory_stats(&table).refusal == 0, "the totals answer", damage->name);
    check(table_open_list(&table).refusal == 0, "the open list answers", damage->name);
    check(table_poll(&table, 0).refusal == 0, "the poll answers", damage->name);
    check(table_cancel(&table, 1, 6).refusal == 0, "the cancel answers", damage->name);
    check(table_drop_peer(&table, 1).refusal == 0, "the drop answers", damage->name);
    check(table_guarded(&table), "nothing is written before a slice", damage->name);
    table_free(&table);
}

/* Records with numbers that no chunk has, and no count: every first count is below them. */
static void test_damaged_numbers(void)
{
    struct table table;
    struct bytes largest = chunk_of((struct fields){5, "", 16383, 3, "f"}),
                 none = chunk_of((struct fields){5, "", 0, 3, "f"});
    make_begun(&table);
    uint64_t *slot = lent_words(&table.lent[NUMBERS]) + slot_at(0, 0);
    slot[NUM_CHUNKS] = 0;
    lent_words(&table.lent[INDEX])[1] = RECORD(16384, 2, 3);
    check(table_feed(&table, 1, largest.at, largest.len, 9999).refusal == 8, "the largest count", "damaged numbers");
    check(slot[ACTIVE] == 1 && slot[NUM_CHUNKS] == 0 && slot[INDEX_LEN] == 2, "the list stays open", "damaged numbers");
    check(table_feed(&table, 1, none.at, none.len, 9999).refusal == 0, "a chunk without a count", "damaged numbers");
    check(table_guarded(&table), "nothing is written before a slice", "damaged numbers");
    table_free(&table);
}

/* A table that is fed under another shape, and memory that midici_pe_new never had: 31, and only midici_pe_new helps. */
static void test_no_table(void)
{
    struct table table;
    struct bytes first = chunk_of(FIRST), second = chunk_of((struct fields){5, "", 3, 2, "de"});
    table_make(&table, (midici_pe_shape){2, HEADER_BYTES, TX_BYTES, RECORDS}, 0);
    table_keep(&table);
    check(table_feed(&table, 1, first.at, first.len, 0).refusal == 7, "every record looks taken", "memory without a table");
    check(table_same(&table), "everything stays", "memory without a table");
    for (size_t p = 0; p < 2; p++)
        lent_words(&table.lent[NUMBERS])[peer_at(p) + BOUND] = 0;
    table_keep(&table);
    check_refused(&table, table_feed(&table, 1, first.at, first.len, 0), 6, 0, "memory without a table");
    lent_words(&table.lent[NUMBERS])[slot_at(0, 0) + ACTIVE] = 0;
    table_keep(&table);
    check_refused(&table, table_feed(&table, 1, first.at, first.len, 0), 31, 0, "memory without a table");
    check(table_drop_peer(&table, 1).refusal == 0 && table_poll(&table, UINT64_MAX).refusal == 0, "they answer",
          "memory without a table");
    check(table_new(&table).refusal == 0, "a table is made", "memory without a table");
    check(table_feed(&table, 1, first.at, first.len, 0).refusal == 0, "and takes chunks", "memory without a table");
    table.shape.fragment_records = 0;
    table_keep(&table);
    check_refused(&table, table_feed(&table, 1, second.at, second.len, 0), 31, 0, "another shape");
    table_free(&table);
}

void test_lent_memory(void)
{
    for (const struct call *call = calls; call->name != NULL; call++) {
        test_shapes_and_slices(call);
        test_wrong_peer(call);
        test_no_peers(call);
    }
    test_nothing();
    test_longest();
    test_no_rooms();
    test_no_table();
    test_damaged_numbers();
    for (size_t i = 0; i < sizeof damages / sizeof damages[0]; i++)
        test_damage(&damages[i]);
}
