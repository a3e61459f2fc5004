/* Tests of the reader of .syx files: what is listed, torn and dropped, and columns of every length. */
#include "check.h"

#include <stdlib.h>
#include <string.h>

enum { MOST_BYTES = 4096, MOST_MESSAGES = MOST_BYTES / 2, EXTRA = 3, LONG_BODY = 300 };

/* What is lent: a file, and the two columns. */
struct lending {
    struct lent file, places, lengths;
};

/* What a file holds. */
struct held {
    uint64_t torn, messages;
    uint64_t places[MOST_MESSAGES], lengths[MOST_MESSAGES];
};

/* ---- A file, and what it should hold ---- */

static void begin_file(struct bytes *file, struct held *held)
{
    file->len = 0;
    held->torn = held->messages = 0;
}

/* So many data bytes, of any value up to 7F. */
static void add_data(struct bytes *file, size_t len)
{
    for (size_t i = 0; i < len; i++)
        add_byte(file, (unsigned)(127 - i % 128));
}

/* Bytes written as hexadecimal text, with a space between. */
static void add_text(struct bytes *file, const char *text)
{
    char *end;
    for (unsigned long byte = strtoul(text, &end, 16); end != text; byte = strtoul(text, &end, 16)) {
        add_byte(file, (unsigned)byte);
        text = end;
    }
}

static void hold(struct held *held, uint64_t place, uint64_t length)
{
    held->places[held->messages] = place;
    held->lengths[held->messages] = length;
    held->messages++;
}

/* ---- One file, with columns of many lengths ---- */

static void lend_column(struct lent *column, size_t elements)
{
    lent_resize_or_null(column, 8 * elements);
    lent_fill(column);
    lent_keep(column);
}

static void lend_file(struct lending *lending, const struct bytes *file)
{
    lent_resize_or_null(&lending->file, file->len);
    if (file->len > 0)
        memcpy(lending->file.at, file->at, file->len);
    lent_keep(&lending->file);
}

static bool answers(midici_pe_syx answer, uint8_t refusal, uint64_t messages, uint64_t torn)
{
    return answer.refusal == refusal && answer.messages == messages && answer.torn == torn;
}

/* Does a column begin with these numbers, and keep its own behind them? */
static bool holds(const struct lent *column, const uint64_t *numbers, uint64_t count)
{
    return (count == 0 || memcmp(column->at, numbers, 8 * (size_t)count) == 0) && lent_same_from(column, 8 * (size_t)count);
}

/* The lent file, read into columns of these lengths. */
static void test_columns(struct lending *lending, const struct held *held, size_t places_len, size_t lengths_len,
                         const char *of)
{
    struct lent *file = &lending->file, *places = &lending->places, *lengths = &lending->lengths;
    lend_column(places, places_len);
    lend_column(lengths, lengths_len);
    midici_pe_syx answer =
        midici_pe_syx_list(file->at, file->len, lent_words(places), places_len, lent_words(lengths), lengths_len);
    if (held->messages > places_len || held->messages > lengths_len) {
        check(answers(answer, 32, 0, 0), "a short column is refused with 32", of);
        check(lent_same_from(places, 0) && lent_same_from(lengths, 0), "a refusal leaves both columns", of);
    } else {
        check(answers(answer, 0, held->messages, held->torn), "how many are listed, and how many are torn", of);
        check(holds(places, held->places, held->messages), "the places, and what is past them", of);
        check(holds(lengths, held->lengths, held->messages), "the lengths, and what is past them", of);
    }
    check(lent_guarded(places) && lent_guarded(lengths), "nothing is written before a column", of);
    check(lent_same_from(file, 0) && lent_guarded(file), "the file stays", of);
    midici_pe_syx model = model_syx_list(file, places, lengths);
    check(answers(model, answer.refusal, answer.messages, answer.torn), "the model answers the same", of);
    check(lent_same_from(places, 0) && lent_same_from(lengths, 0), "the model lists the same", of);
}

/* A file, read into columns of the least length that holds all. */
static void test_file(struct lending *lending, const struct bytes *file, const struct held *held, const char *of)
{
    lend_file(lending, file);
    test_columns(lending, held, (size_t)held->messages, (size_t)held->messages, of);
}

/* The same into longer columns, and into ones that are too short. */
static void test_every_column(struct lending *lending, const struct bytes *file, const struct held *held, const char *of)
{
    size_t least = (size_t)held->messages;
    test_file(lending, file, held, of);
    test_columns(lending, held, least + EXTRA, least, of);
    test_columns(lending, held, least, least + EXTRA, of);
    test_columns(lending, held, file->len / 2, file->len / 2, of);
    test_columns(lending, held, 0, 0, of);
    if (least > 0) {
        test_columns(lending, held, least - 1, least, of);
        test_columns(lending, held, least, least - 1, of);
        test_columns(lending, held, least - 1, least - 1, of);
        test_columns(lending, held, 0, least + EXTRA, of);
        test_columns(lending, held, least + EXTRA, 0, of);
    }
}

/* ---- Files by hand ---- */

/* A file: how many messages are torn and how many whole, and the place and the length of each whole one. */
static const struct file_case {
    const char *name;
    const char *file;
    uint64_t torn, messages;
    struct {
        uint64_t place, length;
    } listed[4];
} file_cases[] = {
    {"an empty file", "", 0, 0, {{0, 0}}},
    {"only dirt", "00 7F 80 F6 F8 FF 41", 0, 0, {{0, 0}}},
    {"only the ends of messages", "F7 F7 01 F7", 0, 0, {{0, 0}}},
    {"one message", "F0 7E 00 7F F7", 0, 1, {{1, 3}}},
    {"a body of one byte", "F0 7F F7", 0, 1, {{1, 1}}},
    {"an empty message", "F0 F7", 0, 1, {{1, 0}}},
    {"two in a row", "F0 01 F7 F0 02 03 F7", 0, 2, {{1, 1}, {4, 2}}},
    {"empty ones in a row", "F0 F7 F0 F7 F0 F7", 0, 3, {{1, 0}, {3, 0}, {5, 0}}},
    {"dirt before", "00 7F F7 FE F0 01 F7", 0, 1, {{5, 1}}},
    {"dirt between", "F0 01 F7 02 80 F8 F0 03 F7", 0, 2, {{1, 1}, {7, 1}}},
    {"dirt behind", "F0 01 F7 02 80 F8", 0, 1, {{1, 1}}},
    {"an F7 between", "F0 01 F7 F7 F0 02 F7", 0, 2, {{1, 1}, {5, 1}}},
    {"an F7 behind", "F0 01 F7 F7", 0, 1, {{1, 1}}},
    {"F0 inside", "F0 01 F0 02 F7", 1, 1, {{3, 1}}},
    {"F0 after F0", "F0 F0 F0 01 F7", 2, 1, {{3, 1}}},
    {"nothing but F0", "F0 F0 F0", 3, 0, {{0, 0}}},
    {"a real-time byte inside", "F0 01 F8 02 F7", 1, 0, {{0, 0}}},
    {"a real-time byte right behind F0", "F0 F8 F7", 1, 0, {{0, 0}}},
    {"a real-time byte right before F7", "F0 01 FE F7", 1, 0, {{0, 0}}},
    {"torn once only", "F0 01 80 81 FF 02 F7", 1, 0, {{0, 0}}},
    {"torn, and a whole one behind", "F0 01 80 02 F7 F0 03 F7", 1, 1, {{6, 1}}},
    {"the end behind F0", "F0", 1, 0, {{0, 0}}},
    {"the end inside", "F0 01 02", 1, 0, {{0, 0}}},
    {"the end behind a message's F0", "F0 01 F7 F0", 1, 1, {{1, 1}}},
    {"torn, and the end inside", "F0 01 C0 F0 02", 2, 0, {{0, 0}}},
    {"whole and torn in turn", "F0 F7 F0 FF F0 01 F7 F0 F0 02 03 F7 F0", 3, 3, {{1, 0}, {5, 1}, {9, 2}}},
};

static void read_case(const struct file_case *c, struct bytes *file, struct held *held)
{
    begin_file(file, held);
    add_text(file, c->file);
    held->torn = c->torn;
    for (uint64_t i = 0; i < c->messages; i++)
        hold(held, c->listed[i].place, c->listed[i].length);
}

/* Bytes before a file that begins with F0, and how many of their messages are torn, the last of them by that F0. */
static const struct before {
    const char *name;
    const char *bytes;
    uint64_t torn;
} befores[] = {
    {"behind dirt", "01 7F F7 80", 0},
    {"behind a real-time byte", "F8", 0},
    {"behind an F0", "F0", 1},
    {"behind a message without its end", "F0 01 02", 1},
    {"behind two such", "F0 01 F0 02", 2},
    {"behind a torn message", "F0 01 F8 02", 1},
};

/* From its F0 on, a file's messages are the same, with places counted from it. */
static void test_before(struct lending *lending, const struct file_case *c, const struct before *before)
{
    static struct bytes file, whole;
    static struct held held;
    read_case(c, &file, &held);
    whole.len = 0;
    add_text(&whole, before->bytes);
    held.torn += before->torn;
    for (uint64_t i = 0; i < held.messages; i++)
        held.places[i] += whole.len;
    add_bytes(&whole, file.at, file.len);
    test_every_column(lending, &whole, &held, before->name);
}

static void test_cases(struct lending *lending)
{
    static struct bytes file;
    static struct held held;
    for (size_t i = 0; i < sizeof file_cases / sizeof file_cases[0]; i++) {
        const struct file_case *c = &file_cases[i];
        read_case(c, &file, &held);
        test_every_column(lending, &file, &held, c->name);
        for (size_t k = 0; file.len > 0 && file.at[0] == 0xF0 && k < sizeof befores / sizeof befores[0]; k++)
            test_before(lending, c, &befores[k]);
    }
}

/* Nothing is read or written where a length is 0, also behind a pointer that is not NULL. */
static void test_nothing(struct lending *lending)
{
    const uint8_t message[2] = {0xF0, 0xF7};
    struct lent *file = &lending->file, *places = &lending->places, *lengths = &lending->lengths;
    lent_resize(file, 0);
    lent_resize(places, 0);
    lent_resize(lengths, 0);
    midici_pe_syx answer = midici_pe_syx_list(file->at, 0, lent_words(places), 0, lent_words(lengths), 0);
    check(answers(answer, 0, 0, 0), "nothing is listed", "a file of no bytes");
    answer = midici_pe_syx_list(message, sizeof message, lent_words(places), 0, lent_words(lengths), 0);
    check(answers(answer, 32, 0, 0), "columns of no elements are refused with 32", "an empty message");
}

/* ---- Files of every length ---- */

/* A message with a body of each length, whole and without its F7, with a short message behind it. */
static void test_bodies(struct lending *lending)
{
    static struct bytes file;
    static struct held held;
    for (size_t len = 0; len <= LONG_BODY; len++) {
        begin_file(&file, &held);
        add_byte(&file, 0xF0);
        add_data(&file, len);
        held.torn = 1;
        test_file(lending, &file, &held, "a body without an end");
        add_byte(&file, 0xF7);
        held.torn = 0;
        hold(&held, 1, len);
        test_every_column(lending, &file, &held, "a body of each length");
        add_text(&file, "F0 05 F7");
        hold(&held, len + 3, 1);
        test_file(lending, &file, &held, "a body of each length, and another one");
    }
}

/* Each byte above 7F at each place of a long body: F7 ends the message, F0 begins another one, and the others tear it. */
static void test_inside(struct lending *lending, size_t at, unsigned byte)
{
    static struct bytes file;
    static struct held held;
    begin_file(&file, &held);
    add_byte(&file, 0xF0);
    add_data(&file, at);
    add_byte(&file, byte);
    add_data(&file, LONG_BODY - 1 - at);
    add_byte(&file, 0xF7);
    held.torn = byte != 0xF7;
    if (byte == 0xF7)
        hold(&held, 1, at);
    if (byte == 0xF0)
        hold(&held, at + 2, LONG_BODY - 1 - at);
    test_file(lending, &file, &held, "a byte above 7F at each place");
}

/* A message with so many bytes of dirt before it, and as many behind it. */
static void test_dirt(struct lending *lending, size_t len, unsigned byte)
{
    static struct bytes file;
    static struct held held;
    begin_file(&file, &held);
    for (size_t i = 0; i < len; i++)
        add_byte(&file, byte);
    add_text(&file, "F0 01 02 F7");
    hold(&held, len + 1, 2);
    for (size_t i = 0; i < len; i++)
        add_byte(&file, byte);
    test_file(lending, &file, &held, "dirt before and behind");
}

static void test_lengths(struct lending *lending)
{
    test_bodies(lending);
    for (size_t at = 0; at < LONG_BODY; at++)
        for (unsigned byte = 0x80; byte <= 0xFF; byte++)
            test_inside(lending, at, byte);
    for (size_t len = 0; len <= LONG_BODY; len++) {
        test_dirt(lending, len, 0x7F);
        test_dirt(lending, len, 0xF7);
    }
    for (unsigned byte = 0; byte <= 0xFF; byte++)
        if (byte != 0xF0)
            test_dirt(lending, LONG_BODY, byte);
}

/* ---- Many messages, and what is done with them ---- */

/* A file of n bytes has at most n / 2 messages: as many as that, with a byte left over or none. */
static void test_most(struct lending *lending)
{
    static struct bytes file;
    static struct held held;
    begin_file(&file, &held);
    while (file.len < MOST_BYTES) {
        hold(&held, file.len + 1, 0);
        add_text(&file, "F0 F7");
    }
    test_every_column(lending, &file, &held, "the most messages");
    held.messages--;
    file.len--;
    held.torn = 1;
    test_every_column(lending, &file, &held, "the most messages, and a torn one");
}

/* What is listed is what midici_pe_feed_message takes: the last chunk of a list, from a file. */
static void test_fed(void)
{
    struct table table;
    struct bytes chunk = chunk_of((struct fields){5, "", 3, 3, "f"}), message = message_of(0x35, 1, 9, &chunk), file;
    uint64_t place = 0, length = 0;
    file.len = 0;
    add_text(&file, "F0 7E 7F 0D F8 F0");
    add_bytes(&file, message.at, message.len);
    add_byte(&file, 0xF7);
    midici_pe_syx answer = midici_pe_syx_list(file.at, file.len, &place, 1, &length, 1);
    check(answers(answer, 0, 1, 1), "a message is listed", "a message from a file");
    make_begun(&table);
    midici_pe_fed fed = table_feed_message(&table, file.at + place, (size_t)length, 1000);
    check(fed.refusal == 0 && fed.whole == 1 && fed.header_len == 2 && fed.body_len == 6, "the list is whole",
          "a message from a file");
    check(memcmp(table.lent[OUT_BODY].at, "abcdef", 6) == 0, "the body", "a message from a file");
    table_free(&table);
}

void test_files(void)
{
    struct lending lending;
    lent_make(&lending.file, MOST_BYTES);
    lent_make(&lending.places, 8 * (MOST_MESSAGES + EXTRA));
    lent_make(&lending.lengths, 8 * (MOST_MESSAGES + EXTRA));
    test_cases(&lending);
    test_nothing(&lending);
    test_lengths(&lending);
    test_most(&lending);
    test_fed();
    lent_free(&lending.file);
    lent_free(&lending.places);
    lent_free(&lending.lengths);
}
