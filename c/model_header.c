/* What finding a value in a header should answer: document 02, K2, read part by part of a JSON object. */
#include "table.h"

enum { MOST_BYTES = 4096, MOST_PAIRS = MOST_BYTES / 4, MOST_NUMBER = 65535 }; /* a pair has at least 4 bytes: "":0 */

/* A name's units, from `units` on, and its value. */
struct pair {
    size_t units, units_len;
    midici_pe_found value;
};

/* A header, and what is read of it: up to which byte, the units of all names and the pairs. */
struct reading {
    const uint8_t *header;
    size_t len, at;
    uint16_t units[MOST_BYTES];
    size_t units_len;
    struct pair pairs[MOST_PAIRS];
    size_t pairs_len;
};

/* ---- Bytes ---- */

/* The next byte, or -1 at the end. */
static int next(const struct reading *r) { return r->at < r->len ? r->header[r->at] : -1; }

/* Reads the byte if it is the next one. */
static bool reads(struct reading *r, char byte)
{
    bool is_next = next(r) == byte;
    r->at += is_next;
    return is_next;
}

static void skip_white_space(struct reading *r)
{
    while (reads(r, ' ') || reads(r, '\t') || reads(r, '\n') || reads(r, '\r'))
        continue;
}

static bool is_digit(int byte) { return byte >= '0' && byte <= '9'; }

/* ---- Strings ---- */

/* The value of a hexadecimal digit, or -1. */
static int hex_value(int byte)
{
    if (is_digit(byte))
        return byte - '0';
    if (byte >= 'A' && byte <= 'F')
        return byte - 'A' + 10;
    return byte >= 'a' && byte <= 'f' ? byte - 'a' + 10 : -1;
}

/* Four hexadecimal digits: the unit, or -1. */
static int read_hex(struct reading *r)
{
    int unit = 0;
    for (int i = 0; i < 4; i++, r->at++) {
        int digit = hex_value(next(r));
        if (digit < 0)
            return -1;
        unit = 16 * unit + digit;
    }
    return unit;
}

/* What is behind a backslash: the unit, or -1. */
static int read_escape(struct reading *r)
{
    static const struct {
        char letter, unit;
    } escapes[] = {{'"', '"'}, {'\\', '\\'}, {'/', '/'}, {'b', 8}, {'f', 12}, {'n', 10}, {'r', 13}, {'t', 9}};
    for (size_t i = 0; i < sizeof escapes / sizeof escapes[0]; i++)
        if (reads(r, escapes[i].letter))
            return escapes[i].unit;
    return reads(r, 'u') ? read_hex(r) : -1;
}

/* The next unit of a string, or -1. */
static int read_unit(struct reading *r)
{
    if (reads(r, '\\'))
        return read_escape(r);
    int byte = next(r);
    if (byte < 0x20 || byte > 0x7F)
        return -1;
    r->at++;
    return byte;
}

/* A string, from quote to quote. Its units are added to those of the names. */
static bool read_string(struct reading *r)
{
    if (!reads(r, '"'))
        return false;
    while (!reads(r, '"')) {
        int unit = read_unit(r);
        if (unit < 0)
            return false;
        r->units[r->units_len++] = (uint16_t)unit;
    }
    return true;
}

/* ---- Values ---- */

static bool read_word(struct reading *r, const char *word)
{
    while (*word != '\0')
        if (!reads(r, *word++))
            return false;
    return true;
}

/* A whole number: 0, or a digit other than 0 and more of them. */
static bool read_number(struct reading *r)
{
    long number = 0;
    if (reads(r, '0'))
        return true;
    if (!is_digit(next(r)))
        return false;
    for (; is_digit(next(r)); r->at++)
        number = number > MOST_NUMBER ? number : 10 * number + (next(r) - '0');
    return number <= MOST_NUMBER;
}

/* A string as a value: no name, so that its units are not kept. */
static bool read_string_value(struct reading *r)
{
    size_t units_len = r->units_len;
    bool is_string = read_string(r);
    r->units_len = units_len;
    return is_string;
}

static bool read_value(struct reading *r, midici_pe_found *value)
{
    bool is_value;
    size_t from = r->at;
    switch (next(r)) {
    case '"':
        *value = (midici_pe_found){.kind = MIDICI_PE_STRING};
        is_value = read_string_value(r);
        break;
    case 't':
        *value = (midici_pe_found){.kind = MIDICI_PE_TRUE};
        is_value = read_word(r, "true");
        break;
    case 'f':
        *value = (midici_pe_found){.kind = MIDICI_PE_FALSE};
        is_value = read_word(r, "false");
        break;
    case 'n':
        *value = (midici_pe_found){.kind = MIDICI_PE_NULL};
        is_value = read_word(r, "null");
        break;
    default:
        *value = (midici_pe_found){.kind = MIDICI_PE_NUMBER};
        is_value = read_number(r);
    }
    size_t quote = value->kind == MIDICI_PE_STRING ? 1 : 0;
    value->place = from + quote;
    value->length = r->at - from - 2 * quote;
    return is_value;
}

/* ---- The object ---- */

static bool read_pair(struct reading *r)
{
    struct pair *pair = &r->pairs[r->pairs_len++];
    pair->units = r->units_len;
    skip_white_space(r);
    if (!read_string(r))
        return false;
    pair->units_len = r->units_len - pair->units;
    skip_white_space(r);
    if (!reads(r, ':'))
        return false;
    skip_white_space(r);
    if (!read_value(r, &pair->value))
        return false;
    skip_white_space(r);
    return true;
}

static bool read_pairs(struct reading *r)
{
    do
        if (!read_pair(r))
            return false;
    while (reads(r, ','));
    return reads(r, '}');
}

static bool read_object(struct reading *r)
{
    skip_white_space(r);
    if (!reads(r, '{'))
        return false;
    skip_white_space(r);
    if (!reads(r, '}') && !read_pairs(r))
        return false;
    skip_white_space(r);
    return r->at == r->len;
}

static bool has_name_twice(const struct reading *r)
{
    for (size_t i = 0; i < r->pairs_len; i++)
        for (size_t k = 0; k < i; k++) {
            const struct pair *a = &r->pairs[i], *b = &r->pairs[k];
            size_t same = 0;
            while (same < a->units_len && same < b->units_len && r->units[a->units + same] == r->units[b->units + same])
                same++;
            if (same == a->units_len && same == b->units_len)
                return true;
        }
    return false;
}

static bool has_name(const struct reading *r, const struct pair *pair, const struct lent *name)
{
    bool is_same = pair->units_len == name->len;
    for (size_t i = 0; is_same && i < name->len; i++)
        is_same = name->at[i] <= 0x7F && r->units[pair->units + i] == name->at[i];
    return is_same;
}

midici_pe_found model_header_find(const struct lent *header, const struct lent *name)
{
    static struct reading r;
    midici_pe_found absent = {0, MIDICI_PE_ABSENT, 0, 0};
    r.header = header->at;
    r.len = header->len;
    r.at = r.units_len = r.pairs_len = 0;
    if (r.len > MOST_BYTES)
        return (midici_pe_found){.refusal = 33};
    if (!read_object(&r))
        return (midici_pe_found){.refusal = 34};
    if (has_name_twice(&r))
        return (midici_pe_found){.refusal = 35};
    for (size_t i = 0; i < r.pairs_len; i++)
        if (has_name(&r, &r.pairs[i], name))
            return r.pairs[i].value;
    return absent;
}
