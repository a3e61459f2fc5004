/* What a fuzzer's bytes choose: what is lent, what it holds, and the arguments of calls. */
#include "fuzz.h"
#include "layout.h"

#include <string.h>

enum { SMALL = 4096, LARGE = 65536 + 64, MOST_HEADER = 20000, MOST_BODY = 40000, MOST_OUT = 48000 };

unsigned take(struct input *input)
{
    if (input->left == 0)
        return 0;
    input->left--;
    return *input->at++;
}

uint64_t take_bits(struct input *input, int bytes)
{
    uint64_t bits = 0;
    for (int i = 0; i < bytes; i++)
        bits = bits << 8 | take(input);
    return bits;
}

uint64_t take_number(struct input *input)
{
    switch (take(input) % 8) {
    case 0:
        return take_bits(input, 8);
    case 1:
        return take_bits(input, 4);
    case 2:
        return take_bits(input, 2);
    case 3:
        return UINT64_MAX - take(input);
    case 4:
        return 3000 + take(input) % 4;
    default:
        return take(input) % 8;
    }
}

uint32_t take_limit(struct input *input)
{
    unsigned choice = take(input);
    return (uint32_t)(choice < 128 ? take(input) : choice < 192 ? take_bits(input, 2) : take_number(input));
}

uint32_t take_muid(struct input *input)
{
    unsigned choice = take(input);
    if (choice < 200)
        return choice % 5;
    return choice < 220 ? MIDICI_PE_MUID_MAX : choice < 240 ? MIDICI_PE_MUID_MAX + 1 : (uint32_t)take_bits(input, 4);
}

void put_any(struct input *input, uint8_t *bytes, size_t len)
{
    size_t place = take(input) % len;
    bytes[place] = (uint8_t)take(input);
}

/* A number of a shape: most often up to `few`, else at the end of its range, past it, or any. */
static size_t take_size(struct input *input, size_t few, size_t most)
{
    unsigned choice = take(input);
    if (choice < 224)
        return choice % (few + 1);
    return choice < 236 ? most : choice < 244 ? most + 1 : (size_t)take_number(input);
}

static size_t least(size_t a, size_t b) { return a < b ? a : b; }

/* ---- What is lent ---- */

/* How long a slice is that should have `asked` bytes, in elements of `size` bytes. */
static size_t take_len(struct input *input, size_t asked, size_t size)
{
    unsigned choice = take(input);
    size_t elements = asked / size;
    if (choice < 128)
        return asked;
    if (choice < 192)
        elements += choice % 4;
    else if (choice < 224)
        elements -= elements > 0;
    else
        elements = choice < 240 ? 0 : take(input);
    return elements * size;
}

static midici_pe_shape choose_shape(struct input *input)
{
    midici_pe_shape shape;
    shape.max_peers = take_size(input, 3, 16);
    shape.header_bytes = take_size(input, 12, 4096);
    shape.tx_bytes = take_size(input, 40, 65536);
    shape.fragment_records = take_size(input, 6, 2048);
    return shape;
}

/* The lengths of the table's slices; whether all fit into SMALL. */
static bool choose_lens(struct input *input, midici_pe_shape shape, size_t lens[LENT])
{
    bool is_exact = take(input) < 192, is_small = true;
    for (int slice = 0; slice < LENT; slice++) {
        size_t size = table_has_words(slice) ? 8 : 1, asked = shape_in_range(shape) ? shape_asks(shape, slice) : 8 * size;
        lens[slice] = least(is_exact ? asked : take_len(input, asked, size), LARGE / 8 * 8);
        is_small = is_small && lens[slice] <= SMALL;
    }
    return is_small;
}

static void lend(struct lending *lending, midici_pe_shape shape, const size_t lens[LENT])
{
    struct table *table = &lending->table;
    table->shape = shape;
    for (int slice = 0; slice < LENT; slice++) {
        lent_resize_or_null(&table->lent[slice], lens[slice]);
        lent_fill(&table->lent[slice]);
    }
    lending->is_sound = false;
}

static void make_rooms(struct lending *lending, size_t len)
{
    for (int slice = 0; slice < LENT; slice++)
        lent_make(&lending->table.lent[slice], len);
    lent_make(&lending->header, MOST_HEADER);
    lent_make(&lending->body, MOST_BODY);
    lent_make(&lending->out, MOST_OUT);
    lent_make(&lending->places, SMALL);
    lent_make(&lending->lengths, SMALL);
    stage_make(&lending->stage, SMALL / 8, SMALL, SMALL);
}

/* The first call makes the rooms: small ones, and large ones for what is longer, since they are looked through after every
 * call. */
struct lending *choose_lending(struct input *input)
{
    static struct lending small, large;
    size_t lens[LENT];
    if (small.table.lent[0].room == NULL) {
        make_rooms(&small, SMALL);
        make_rooms(&large, LARGE);
    }
    midici_pe_shape shape = choose_shape(input);
    struct lending *lending = choose_lens(input, shape, lens) ? &small : &large;
    lend(lending, shape, lens);
    return lending;
}

/* The next of a row of numbers that look random. */
static uint64_t scatter(uint64_t *seed)
{
    *seed ^= *seed << 13;
    *seed ^= *seed >> 7;
    *seed ^= *seed << 17;
    return *seed;
}

/* A word of a table's memory as somebody might have left it. */
static uint64_t any_word(const struct table *table, uint64_t *seed)
{
    uint64_t choice = scatter(seed), few = scatter(seed) % 6;
    midici_pe_shape shape = table->shape;
    const uint64_t words[8] = {0, 1, few, shape.header_bytes, shape.tx_bytes, shape.fragment_records, 0, choice};
    return choice % 64 == 9 ? UINT64_MAX : words[choice >> 32 & 7];
}

/* Lays the records of a slot end to end, with any numbers, so that the slot may pass as sound. */
static void lay_records(struct table *table, size_t slot, uint64_t *seed)
{
    uint64_t *words = lent_words(&table->lent[NUMBERS]) + slot_at(slot / SLOTS, slot % SLOTS);
    uint64_t *index = lent_words(&table->lent[INDEX]) + room_at(table->shape.fragment_records, slot / SLOTS, slot % SLOTS);
    uint64_t held = scatter(seed) % (table->shape.fragment_records + 1), offset = 0;
    for (uint64_t i = 0; i < held; i++) {
        uint64_t len = least(scatter(seed) % 8, table->shape.tx_bytes - offset);
        uint64_t number = scatter(seed) % 16 == 0 ? scatter(seed) % 65536 : scatter(seed) % 6;
        index[i] = RECORD(number, len, offset);
        offset += len;
    }
    words[ACTIVE] = scatter(seed) % 8;
    words[REQUEST_ID] = scatter(seed) % 6;
    words[NUM_CHUNKS] = scatter(seed) % 8 == 0 ? any_word(table, seed) : scatter(seed) % 4;
    words[HEADER_LEN] = scatter(seed) % (table->shape.header_bytes + 1);
    words[INDEX_LEN] = held;
    words[PROPERTY_BYTES] = offset;
}

static bool is_lent_all(const struct table *table)
{
    if (!shape_in_range(table->shape))
        return false;
    for (int slice = 0; slice < LENT; slice++)
        if (table->lent[slice].len < shape_asks(table->shape, slice))
            return false;
    return true;
}

void fill_table(struct input *input, struct table *table)
{
    uint64_t seed = take_bits(input, 4) + 1;
    for (int slice = 0; slice < LENT; slice++) {
        struct lent *lent = &table->lent[slice];
        for (size_t i = 0; table_has_words(slice) && i < lent->len / 8; i++)
            lent_words(lent)[i] = any_word(table, &seed);
        if (!table_has_words(slice))
            lent_fill(lent);
    }
    if (take(input) % 2 == 0 && is_lent_all(table) && table->shape.fragment_records > 0)
        for (size_t slot = 0; slot < SLOTS * table->shape.max_peers; slot++)
            if (scatter(&seed) % 4 != 0)
                lay_records(table, slot, &seed);
}

/* ---- Arguments ---- */

static void add_byte(struct lent *bytes, size_t *len, unsigned byte)
{
    if (*len < bytes->len)
        bytes->at[(*len)++] = (uint8_t)byte;
}

static void add_u14(struct lent *bytes, size_t *len, size_t number)
{
    add_byte(bytes, len, (unsigned)(number % 128));
    add_byte(bytes, len, (unsigned)(number / 128));
}

/* Cuts a slice to the first `len` bytes, and keeps them. */
static void cut_to(struct lent *bytes, size_t len)
{
    memmove(bytes->at + bytes->len - len, bytes->at, len);
    lent_resize_or_null(bytes, len);
    lent_keep(bytes);
}

void choose_chunk(struct input *input, const struct table *table, struct lent *bytes, size_t before)
{
    const unsigned numbers[8] = {1, 2, 3, 1, 2, 3, 4, 0}, counts[8] = {2, 3, 2, 3, 2, 3, 1, 0};
    unsigned odd = take(input), choice = take(input), number = numbers[choice % 8], count = counts[choice / 8 % 8];
    unsigned request_id = odd < 240 ? choice / 64 : take(input);
    size_t header_len = number != 1 ? 0
                        : odd < 16  ? odd
                                    : 2,
           property_len = take(input) % (odd < 200 ? 8 : 64), len = before;
    if (odd == 16 && number == 1)
        header_len = least(table->shape.header_bytes + 1, 5000);
    if (odd == 17)
        property_len = least(table->shape.tx_bytes + 1, 10000);
    if (odd >= 24 && odd < 88) { /* a chunk that does not tell its count, or does so late; its number may be a stray one */
        number = take(input) % 6;
        count = odd < 64 ? 0 : number + take(input) % 2;
        header_len = number == 1 ? 2 : 0;
    }
    lent_resize(bytes, before + 9 + header_len + property_len);
    add_byte(bytes, &len, request_id);
    add_u14(bytes, &len, header_len);
    for (size_t i = 0; i < header_len; i++)
        add_byte(bytes, &len, 'a' + i % 16 + (odd >= 18 && odd < 22 && i == odd - 18));
    add_u14(bytes, &len, odd == 22 ? take_bits(input, 1) : count);
    add_u14(bytes, &len, odd == 23 ? take_bits(input, 1) : number);
    add_u14(bytes, &len, property_len);
    for (size_t i = 0; i < property_len; i++)
        add_byte(bytes, &len, (unsigned)(16 * number + i) % 128);
    if (odd >= 244 && property_len > 0)
        bytes->at[len - 1 - (odd - 244) % property_len] |= 0x80;
    if (odd >= 248)
        put_any(input, bytes->at + before, len - before);
}

void choose_bytes(struct input *input, struct lent *bytes)
{
    size_t wanted = take(input);
    lent_resize_or_null(bytes, least(wanted, input->left));
    for (size_t i = 0; i < bytes->len; i++)
        bytes->at[i] = (uint8_t)take(input);
}

void choose_list(struct input *input, struct lending *lending)
{
    unsigned odd = take(input);
    lent_resize_or_null(&lending->header, odd < 240 ? take(input) % 130 : least((size_t)take_bits(input, 2), MOST_HEADER));
    lent_resize_or_null(&lending->body, odd < 200 ? take(input) * 3u : least((size_t)take_bits(input, 2), MOST_BODY));
    lent_resize_or_null(&lending->out, odd % 4 == 0 ? take(input) : MIDICI_PE_CHUNK_LEN);
    for (size_t i = 0; i < lending->header.len; i++)
        lending->header.at[i] = (uint8_t)(i % 128);
    for (size_t i = 0; i < lending->body.len; i++)
        lending->body.at[i] = (uint8_t)(i * 7 % 128);
    if (odd % 8 == 1 && lending->header.len > 0)
        put_any(input, lending->header.at, lending->header.len);
    if (odd % 8 == 2 && lending->body.len > 0)
        lending->body.at[(size_t)take_bits(input, 2) % lending->body.len] |= 0x80;
    lent_fill(&lending->out);
    lent_keep(&lending->header);
    lent_keep(&lending->body);
    lent_keep(&lending->out);
}

void choose_chunk_room(struct input *input, struct lending *lending, uint64_t chunks)
{
    unsigned odd = take(input);
    size_t bytes = lending->header.len + lending->body.len + 9 * (size_t)chunks, places = (size_t)chunks;
    if (odd < 128) {
        bytes += odd % 4;
        places += odd / 4 % 4;
    } else if (odd < 160) {
        bytes -= bytes > 0;
    } else if (odd < 192) {
        places -= places > 0;
    } else if (odd < 224) {
        bytes = (size_t)take_bits(input, 2);
        places = take(input);
    }
    lent_resize_or_null(&lending->out, least(bytes, MOST_OUT));
    lent_resize_or_null(&lending->lengths, 2 * least(places, SMALL / 2));
    lent_fill(&lending->out);
    lent_fill(&lending->lengths);
    lent_keep(&lending->out);
    lent_keep(&lending->lengths);
}

/* Adds a piece to a file: a byte that means something there, any byte, or a run of data bytes. */
static void add_piece(struct input *input, struct lent *file, size_t *len)
{
    const uint8_t marks[12] = {0xF0, 0xF7, 0xF0, 0xF7, 0xF0, 0xF7, 0xF8, 0xFF, 0x7F, 0x80, 0xEF, 0xF6};
    unsigned choice = take(input);
    if (choice < 160)
        add_byte(file, len, marks[choice % 12]);
    else if (choice < 176)
        add_byte(file, len, take(input));
    else
        for (unsigned run = choice < 216 ? choice % 8 : take(input); run > 0; run--)
            add_byte(file, len, run % 128);
}

/* How long a column is, in bytes: mostly enough for so many messages, else any length up to that. */
static size_t take_column(struct input *input, size_t messages)
{
    unsigned choice = take(input);
    return 8 * (choice < 192 ? messages + choice % 3 : choice % (messages + 1));
}

void choose_file(struct input *input, struct lending *lending)
{
    struct lent *file = &lending->body;
    size_t pieces = take(input) % 96, len = 0, messages = 0;
    lent_resize(file, SMALL * 4);
    for (size_t i = 0; i < pieces && input->left > 0; i++)
        add_piece(input, file, &len);
    cut_to(file, len);
    for (size_t i = 0; i < len; i++)
        messages += file->at[i] == 0xF7;
    lent_resize_or_null(&lending->places, take_column(input, messages));
    lent_resize_or_null(&lending->lengths, take_column(input, messages));
    lent_fill(&lending->places);
    lent_fill(&lending->lengths);
    lent_keep(&lending->places);
    lent_keep(&lending->lengths);
}

/* ---- A header to be read ---- */

static void add_text(struct lent *bytes, size_t *len, const char *text)
{
    while (*text != '\0')
        add_byte(bytes, len, (uint8_t)*text++);
}

static const char *take_text(struct input *input, const char *const *texts, size_t count)
{
    return texts[take(input) % count];
}

#define TAKE_TEXT(input, texts) take_text(input, texts, sizeof texts / sizeof texts[0])

/* Between two parts of a header: mostly nothing, else white space, or something that does not belong there. */
static void add_between(struct input *input, struct lent *header, size_t *len)
{
    static const char *const spaces[] = {" ", "\n", "\t", "\r", "  ", " \r\n"};
    static const char *const odd[] = {"\v", ",", "{",    "}",    "[]", "\"", "-",  ".0", "e1",
                                      "0",  "1", "\x80", "\x7F", "\\", ":",  "//", "x"};
    unsigned choice = take(input);
    if (choice >= 250)
        add_text(header, len, TAKE_TEXT(input, odd));
    else if (choice >= 192)
        add_text(header, len, TAKE_TEXT(input, spaces));
    else if (choice == 191)
        for (size_t run = (size_t)take_bits(input, 2) % (SMALL + 8); run > 0; run--)
            add_byte(header, len, ' ');
}

/* A string of a few pieces, in one spelling of many. */
static void add_string(struct input *input, struct lent *header, size_t *len)
{
    static const char *const pieces[] = {"a",        "b",       "c",
                                         "d",        "e",       "f",
                                         "g",        "h",       "ab",
                                         "resource", "/",       "\x7F",
                                         " ",        "\\u0061", "\\u0062",
                                         "\\u006A",  "\\u006a", "\\/",
                                         "\\n",      "\\u000A", "\\b\\f\\r\\t",
                                         "\\\"",     "\\u0022", "\\\\",
                                         "\\u00E9",  "\\u00e9", "\\uD83D\\uDE00",
                                         "\\uD83D",  "\\u0161"};
    unsigned choice = take(input);
    add_byte(header, len, '"');
    for (unsigned count = choice % 4; count > 0; count--)
        add_text(header, len, TAKE_TEXT(input, pieces));
    if (choice >= 250)
        add_byte(header, len, take(input));
    if (choice >= 246 && choice < 250)
        for (unsigned run = take(input); run > 0; run--)
            add_byte(header, len, 'a' + run % 2);
    add_byte(header, len, '"');
}

static void add_value(struct input *input, struct lent *header, size_t *len)
{
    static const char *const values[] = {"0",    "1",     "200",  "65535", "9",     "10",
                                         "true", "false", "null", "true",  "false", "null"};
    static const char *const odd[] = {
        "65536", "00", "-1", "1.5", "1e2", "[]", "{}", "tru", "nulll", "4294967296", "99999999999999999999"};
    unsigned choice = take(input);
    if (choice < 96)
        add_string(input, header, len);
    else
        add_text(header, len, choice < 248 ? TAKE_TEXT(input, values) : TAKE_TEXT(input, odd));
}

static void add_pair(struct input *input, struct lent *header, size_t *len)
{
    add_between(input, header, len);
    add_string(input, header, len);
    add_between(input, header, len);
    add_byte(header, len, ':');
    add_between(input, header, len);
    add_value(input, header, len);
    add_between(input, header, len);
}

/* Adds what stands between one of the first quotes of a header and the next one. */
static void add_between_quotes(struct input *input, const struct lent *header, struct lent *name, size_t *len)
{
    size_t from = 0, quotes = 1 + take(input) % 6;
    while (quotes > 0 && from < header->len)
        quotes -= header->at[from++] == '"';
    while (from < header->len && header->at[from] != '"')
        add_byte(name, len, header->at[from++]);
}

/* A name: most often one that the header may have. */
static void choose_name(struct input *input, const struct lent *header, struct lent *name)
{
    static const char *const names[] = {"a", "b",    "",  "ab", "resource", "j",       "\n",   "\b\f\r\t", "\"",      "\\",
                                        "/", "\x7F", " ", "aa", "ba",       "\\u0061", "\xE9", "a\x80",    "\xC3\xA9"};
    unsigned choice = take(input);
    size_t len = 0;
    if (choice >= 240) {
        choose_bytes(input, name);
        lent_keep(name);
        return;
    }
    lent_resize(name, SMALL);
    if (choice < 128)
        add_between_quotes(input, header, name, &len);
    else
        add_text(name, &len, TAKE_TEXT(input, names));
    cut_to(name, len);
}

void choose_header(struct input *input, struct lending *lending)
{
    struct lent *header = &lending->header;
    unsigned choice = take(input);
    size_t pairs = choice < 16 ? 0 : choice < 224 ? 1 + choice % 5 : choice % 32, len = 0;
    lent_resize(header, 20000);
    add_between(input, header, &len);
    add_byte(header, &len, '{');
    for (size_t i = 0; i < pairs && (i == 0 || input->left > 0); i++) {
        if (i > 0)
            add_byte(header, &len, ',');
        add_pair(input, header, &len);
    }
    add_between(input, header, &len);
    add_byte(header, &len, '}');
    add_between(input, header, &len);
    if (choice >= 248)
        put_any(input, header->at, len);
    cut_to(header, len);
    choose_name(input, header, &lending->body);
}

/* ---- A stage ---- */

/* The length of the output: mostly enough for each chunk of the lists below. */
static void choose_out(struct input *input, struct stage *stage)
{
    unsigned choice = take(input);
    lent_resize_or_null(&stage->lent[OUT], choice < 192 ? 1200 : choice - 192);
    lent_fill(&stage->lent[OUT]);
}

void choose_stage(struct input *input, struct stage *stage)
{
    struct lent *words = &stage->lent[STAGE], *buffer = &stage->lent[BUFFER];
    choose_out(input, stage);
    lent_resize_or_null(words, take_len(input, 8 * MIDICI_PE_STAGE_LEN, 8));
    lent_fill(words);
    lent_resize_or_null(buffer, 16 * take(input));
    for (size_t i = 0; i < buffer->len; i++)
        buffer->at[i] = (uint8_t)(i * 7 % 128);
    if (take(input) % 4 != 0) {
        stage_new(stage);
        return;
    }
    uint64_t seed = take_bits(input, 4) + 1; /* numbers that are often a free place, or a list that can be cut */
    for (size_t i = 0; i < words->len / 8; i++)
        lent_words(words)[i] = scatter(&seed) % 32 == 0 ? scatter(&seed) : scatter(&seed) % (1 + scatter(&seed) % 200);
}

/* Where a part of so many bytes begins: mostly so that it is within the buffer, else near its end, or anywhere. */
static uint64_t take_start(struct input *input, size_t room, uint64_t len)
{
    unsigned choice = take(input);
    if (choice >= 244 || len > room)
        return take_number(input);
    uint64_t last = room - len;
    return choice < 32 ? last + choice % 3 : choice * 13 % (last + 1);
}

/* A number that is mostly below `below`, which is at most 244. */
static uint64_t take_mostly(struct input *input, unsigned below)
{
    unsigned choice = take(input);
    return choice >= 244 ? take_number(input) : choice % below;
}

struct joining choose_joining(struct input *input, struct stage *stage)
{
    size_t room = stage->lent[BUFFER].len;
    unsigned odd = take(input);
    struct joining joining = {.place = take_mostly(input, MIDICI_PE_STAGE_PLACES + 1)};
    midici_pe_outgoing *list = &joining.list;
    list->header_len = take_mostly(input, odd < 16 ? 120 : 12);
    list->header_at = take_start(input, room, list->header_len);
    list->body_len = odd < 128 ? take_mostly(input, 244) : take_bits(input, 2) % 1024;
    list->body_at = take_start(input, room, list->body_len);
    list->request_id = take_mostly(input, 130);
    list->max_sysex = odd < 240 ? take_limit(input) : take_number(input);
    choose_out(input, stage);
    return joining;
}

/* Some words keep their low bits, and get a higher one. */
void damage_stage(struct input *input, struct stage *stage)
{
    struct lent *words = &stage->lent[STAGE], *buffer = &stage->lent[BUFFER];
    unsigned choice = take(input);
    size_t place = (size_t)take_bits(input, 2);
    if (choice < 64 && buffer->len > 0)
        buffer->at[place % buffer->len] ^= 0x80;
    else if (choice < 160 && words->len > 0)
        lent_words(words)[place % (words->len / 8)] += UINT64_C(1) << 8 * (choice % 8);
    else if (words->len > 0)
        lent_words(words)[place % (words->len / 8)] = take_number(input);
}
