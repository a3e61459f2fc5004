/* Tests of bytes that are no chunk or no message: they leave everything as it was. */
#include "check.h"

#include <string.h>

/* Bytes that are no chunk. */
static const struct chunk_case {
    const char *name;
    uint8_t refusal;
    size_t len;
    uint8_t bytes[16];
} chunk_cases[] = {
    {"nothing", 2, 0, {0}},
    {"eight bytes", 2, 8, {5, 0, 0, 3, 0, 3, 0, 0}},
    {"eight bytes, asked before the id", 2, 8, {0x80, 0, 0, 3, 0, 3, 0, 0}},
    {"id", 1, 9, {0x80, 0, 0, 3, 0, 3, 0, 0, 0}},
    {"header length, low byte", 1, 9, {5, 0x80, 0, 3, 0, 3, 0, 0, 0}},
    {"header length, high byte", 1, 9, {5, 0, 0x80, 3, 0, 3, 0, 0, 0}},
    {"header longer than the bytes", 2, 10, {5, 2, 0, 'H', 'D', 3, 0, 1, 0, 0}},
    {"header of 16,383", 2, 9, {5, 0x7F, 0x7F, 3, 0, 3, 0, 0, 0}},
    {"header byte", 1, 11, {5, 2, 0, 'H', 0x80, 3, 0, 1, 0, 0, 0}},
    {"count, low byte", 1, 9, {5, 0, 0, 0x80, 0, 3, 0, 0, 0}},
    {"count, high byte", 1, 9, {5, 0, 0, 3, 0x80, 3, 0, 0, 0}},
    {"number, low byte", 1, 9, {5, 0, 0, 3, 0, 0x80, 0, 0, 0}},
    {"number, high byte", 1, 9, {5, 0, 0, 3, 0, 3, 0x80, 0, 0}},
    {"property length, low byte", 1, 9, {5, 0, 0, 3, 0, 3, 0, 0x80, 0}},
    {"property length, high byte", 1, 9, {5, 0, 0, 3, 0, 3, 0, 0, 0x80}},
    {"property missing", 2, 9, {5, 0, 0, 3, 0, 3, 0, 1, 0}},
    {"property cut short", 2, 10, {5, 0, 0, 3, 0, 3, 0, 2, 0, 'x'}},
    {"a byte left over", 1, 11, {5, 0, 0, 3, 0, 3, 0, 1, 0, 'x', 0}},
    {"header on chunk 3", 8, 11, {5, 2, 0, 'H', 'D', 3, 0, 3, 0, 0, 0}},
    {"header on chunk 0", 8, 11, {5, 2, 0, 'H', 'D', 3, 0, 0, 0, 0, 0}},
    {"left over, asked before the header", 1, 12, {5, 2, 0, 'H', 'D', 3, 0, 3, 0, 0, 0, 0}},
    {"property byte", 1, 10, {5, 0, 0, 3, 0, 3, 0, 1, 0, 0x80}},
    {"property byte, the first", 1, 12, {5, 0, 0, 3, 0, 3, 0, 3, 0, 0x80, 'y', 'z'}},
    {"property byte, the last", 1, 12, {5, 0, 0, 3, 0, 3, 0, 3, 0, 'x', 'y', 0xFF}},
    {"property byte, and number 0", 1, 10, {5, 0, 0, 1, 0, 0, 0, 1, 0, 0xFF}},
    {"property cut short, asked before its bytes", 2, 10, {5, 0, 0, 3, 0, 3, 0, 2, 0, 0xFF}},
    {"property byte, and a byte left over", 1, 11, {5, 0, 0, 3, 0, 3, 0, 1, 0, 0xFF, 0}},
    {"property byte, asked before the header", 1, 12, {5, 2, 0, 'H', 'D', 3, 0, 2, 0, 1, 0, 0xFF}},
    {"property byte, asked before the count", 1, 10, {5, 0, 0, 2, 0, 3, 0, 1, 0, 0x80}},
    {"number above the count", 8, 9, {5, 0, 0, 2, 0, 3, 0, 0, 0}},
    {"number 5 of 2", 8, 10, {5, 0, 0, 2, 0, 5, 0, 1, 0, 'x'}},
    {"number 128 of 127", 8, 9, {5, 0, 0, 0x7F, 0, 0, 1, 0, 0}},
    {"number 16,383 of 16,382", 8, 9, {5, 0, 0, 0x7E, 0x7F, 0x7F, 0x7F, 0, 0}},
    {"number above the count, with a header", 8, 11, {5, 2, 0, 'H', 'D', 2, 0, 3, 0, 0, 0}},
    {"left over, asked before the count", 1, 10, {5, 0, 0, 2, 0, 3, 0, 0, 0, 0}},
};

static void test_chunk_case(const struct chunk_case *c)
{
    struct table table;
    struct lent raw;
    struct bytes chunk = {.len = 0}, message;
    make_begun(&table);
    table_keep(&table);
    lent_make(&raw, c->len);
    memcpy(raw.at, c->bytes, c->len);
    check_refused(&table, table_feed(&table, 1, c->len == 0 ? NULL : raw.at, c->len, 9999), c->refusal, 0, c->name);
    check_refused(&table, table_feed(&table, 0x10000000, raw.at, c->len, 9999), 28, 0, c->name);
    lent_free(&raw);
    add_bytes(&chunk, c->bytes, c->len);
    message = message_of(0x35, 1, 9, &chunk);
    lent_make(&raw, message.len);
    memcpy(raw.at, message.at, message.len);
    check_refused(&table, table_feed_message(&table, raw.at, raw.len, 9999), c->refusal, 0, c->name);
    lent_free(&raw);
    table_free(&table);
}

/* Every part of a chunk and of a message, from its start, each on memory that ends with it. */
static void test_cut_off(void)
{
    struct table table;
    struct lent raw;
    struct bytes chunk = chunk_of(FIRST), message = message_of(0x35, 1, 9, &chunk);
    make_begun(&table);
    table_keep(&table);
    lent_make(&raw, message.len);
    for (size_t len = 0; len < chunk.len; len++) {
        lent_resize(&raw, len);
        memcpy(raw.at, chunk.at, len);
        check_refused(&table, table_feed(&table, 1, raw.at, len, 9999), 2, 0, "a chunk cut off");
    }
    for (size_t len = 0; len < message.len; len++) {
        lent_resize(&raw, len);
        memcpy(raw.at, message.at, len);
        check_refused(&table, table_feed_message(&table, len == 0 ? NULL : raw.at, len, 9999), len < 13 ? 21 : 2, 0,
                      "a message cut off");
    }
    lent_free(&raw);
    table_free(&table);
}

/* One byte of a message put wrong. */
static const struct message_case {
    const char *name;
    size_t at;
    uint8_t byte, refusal, value;
} message_cases[] = {
    {"no SysEx for all", 0, 0x7D, 22, 0},
    {"no MIDI-CI", 2, 0x0C, 23, 0},
    {"source, byte 1", 5, 0x80, 26, 0},
    {"source, byte 2", 6, 0x80, 26, 0},
    {"source, byte 3", 7, 0x80, 26, 0},
    {"source, byte 4", 8, 0x80, 26, 0},
    {"destination, byte 1", 9, 0x80, 26, 0},
    {"destination, byte 2", 10, 0x80, 26, 0},
    {"destination, byte 3", 11, 0x80, 26, 0},
    {"destination, byte 4", 12, 0xFF, 26, 0},
    {"a kind without a chunk", 3, 0x31, 24, 0x31},
    {"a chunk with a wrong id", 13, 0x80, 1, 0},
};

static void test_message_cases(void)
{
    struct table table;
    struct bytes chunk = chunk_of(FIRST), message = message_of(0x35, 1, 9, &chunk);
    make_begun(&table);
    table_keep(&table);
    for (size_t i = 0; i < sizeof message_cases / sizeof message_cases[0]; i++) {
        const struct message_case *c = &message_cases[i];
        struct bytes wrong = message;
        wrong.at[c->at] = c->byte;
        check_refused(&table, table_feed_message(&table, wrong.at, wrong.len, 9999), c->refusal, c->value, c->name);
        /* What is asked first is answered first: a wrong byte further back changes nothing. */
        wrong.at[13] = 0x80;
        check_refused(&table, table_feed_message(&table, wrong.at, wrong.len, 9999), c->refusal, c->value, c->name);
    }
    table_free(&table);
}

/* Device and version are not asked; of the kinds seven carry a chunk. */
static void test_kinds(void)
{
    struct table table;
    struct bytes chunk = chunk_of((struct fields){6, "HD", 1, 1, "abc"}), message = message_of(0x35, 1, 9, &chunk);
    make_begun(&table);
    for (unsigned kind = 0; kind < 256; kind++) {
        bool carries_chunk = (kind >= 0x34 && kind <= 0x39) || kind == 0x3F;
        message.at[1] = (uint8_t)(kind * 7);
        message.at[3] = (uint8_t)kind;
        message.at[4] = (uint8_t)(kind * 5);
        table_keep(&table);
        midici_pe_fed answer = table_feed_message(&table, message.at, message.len, 1000);
        if (carries_chunk)
            check(answer.refusal == 0 && answer.whole == 1, "the chunk is fed", "kinds");
        else
            check_refused(&table, answer, 24, (uint8_t)kind, "kinds");
    }
    table_free(&table);
}

void test_unreadable(void)
{
    for (size_t i = 0; i < sizeof chunk_cases / sizeof chunk_cases[0]; i++)
        test_chunk_case(&chunk_cases[i]);
    test_cut_off();
    test_message_cases();
    test_kinds();
}
