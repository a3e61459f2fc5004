/* Tests of finding a value in a header: each kind of value and each refusal, names in every spelling, and every byte at
 * every place. Where no answer stands here, the model's is asked for. */
#include "check.h"

#include <ctype.h>
#include <stdio.h>
#include <stdlib.h>
#include <string.h>

enum { MOST_BYTES = 4096, MORE_BYTES = 70000, MOST_NAMES = 598 };

/* What is lent: a header and a name. */
struct lending {
    struct lent header, name;
};

static void make_lending(struct lending *lending, size_t most)
{
    lent_make(&lending->header, most);
    lent_make(&lending->name, most);
}

static void free_lending(struct lending *lending)
{
    lent_free(&lending->header);
    lent_free(&lending->name);
}

static void lend(struct lent *lent, const void *bytes, size_t len)
{
    lent_resize_or_null(lent, len);
    if (len > 0)
        memcpy(lent->at, bytes, len);
    lent_keep(lent);
}

/* ---- One call ---- */

static midici_pe_found found(uint8_t kind, uint64_t place, uint64_t length)
{
    return (midici_pe_found){.kind = kind, .place = place, .length = length};
}

static midici_pe_found absent(void) { return found(MIDICI_PE_ABSENT, 0, 0); }

static midici_pe_found refused(uint8_t refusal) { return (midici_pe_found){.refusal = refusal}; }

static bool same(midici_pe_found a, midici_pe_found b)
{
    return a.refusal == b.refusal && a.kind == b.kind && a.place == b.place && a.length == b.length;
}

/* The call, with what is lent: nothing is written, and the model answers the same. */
static midici_pe_found call_lent(struct lending *lending, const char *of)
{
    struct lent *header = &lending->header, *name = &lending->name;
    midici_pe_found answer = midici_pe_header_find(header->at, header->len, name->at, name->len);
    check(lent_same_from(header, 0) && lent_guarded(header) && lent_same_from(name, 0) && lent_guarded(name),
          "header and name stay", of);
    check(same(answer, model_header_find(header, name)), "the model answers the same", of);
    return answer;
}

static void test_named(struct lending *lending, const void *name, size_t len, midici_pe_found wanted, const char *of)
{
    lend(&lending->name, name, len);
    check(same(call_lent(lending, of), wanted), "the answer", of);
}

/* The header and the name are text. */
static void test_text(struct lending *lending, const char *header, const char *name, midici_pe_found wanted)
{
    lend(&lending->header, header, strlen(header));
    test_named(lending, name, strlen(name), wanted, header);
}

/* A header that is refused is refused whatever the name. */
static void test_refused(struct lending *lending, const void *header, size_t len, uint8_t refusal, const char *of)
{
    static const char *const names[] = {"a", "", "resource", "b", "\xE9", "a\x80"};
    lend(&lending->header, header, len);
    for (size_t i = 0; i < sizeof names / sizeof names[0]; i++)
        test_named(lending, names[i], strlen(names[i]), refused(refusal), of);
}

/* ---- Headers by hand ---- */

/* In a case's text an apostrophe stands for a quote. */
static const char *quoted(const char *text)
{
    static char texts[2][256];
    static unsigned next;
    char *to = texts[next++ % 2];
    size_t len = strlen(text);
    for (size_t i = 0; i <= len; i++)
        to[i] = (char)(text[i] == '\'' ? '"' : text[i]);
    return to;
}

/* A header, a name, and its value: kind, place and bytes. */
static const struct value_case {
    const char *header, *name;
    uint8_t kind;
    uint64_t place;
    const char *value;
} value_cases[] = {
    {"{'a':'b'}", "a", MIDICI_PE_STRING, 6, "b"},
    {"{'a':''}", "a", MIDICI_PE_STRING, 6, ""},
    {"{'a':0}", "a", MIDICI_PE_NUMBER, 5, "0"},
    {"{'a':9}", "a", MIDICI_PE_NUMBER, 5, "9"},
    {"{'a':10}", "a", MIDICI_PE_NUMBER, 5, "10"},
    {"{'a':65535}", "a", MIDICI_PE_NUMBER, 5, "65535"},
    {"{'a':true}", "a", MIDICI_PE_TRUE, 5, "true"},
    {"{'a':false}", "a", MIDICI_PE_FALSE, 5, "false"},
    {"{'a':null}", "a", MIDICI_PE_NULL, 5, "null"},
    {"{'':7}", "", MIDICI_PE_NUMBER, 4, "7"},
    {"{'status':200,'resource':'SceneList','total':40}", "status", MIDICI_PE_NUMBER, 10, "200"},
    {"{'status':200,'resource':'SceneList','total':40}", "resource", MIDICI_PE_STRING, 26, "SceneList"},
    {"{'status':200,'resource':'SceneList','total':40}", "total", MIDICI_PE_NUMBER, 45, "40"},
    {"{'a':true,'b':false,'c':null}", "b", MIDICI_PE_FALSE, 14, "false"},
    {"{'a':true,'b':false,'c':null}", "c", MIDICI_PE_NULL, 24, "null"},
    {"{'a':'resource','resource':'a'}", "resource", MIDICI_PE_STRING, 28, "a"},
    {"{'a':'resource','resource':'a'}", "a", MIDICI_PE_STRING, 6, "resource"},
    {"{'':1,'a':2,'ab':3,'abc':4}", "ab", MIDICI_PE_NUMBER, 17, "3"},
    {"{'abc':4,'ab':3,'a':2,'':1}", "", MIDICI_PE_NUMBER, 25, "1"},
    {"{'A':1,'a':2}", "a", MIDICI_PE_NUMBER, 11, "2"},
    {"{'a ':1,' a':2}", " a", MIDICI_PE_NUMBER, 13, "2"},
    {"{'true':false}", "true", MIDICI_PE_FALSE, 8, "false"},
    {"{'1':1}", "1", MIDICI_PE_NUMBER, 5, "1"},
    {"{'\x7F':'\x7F'}", "\x7F", MIDICI_PE_STRING, 6, "\x7F"},
    {"{'a':'},:[]{\\'b\\':1'}", "a", MIDICI_PE_STRING, 6, "},:[]{\\'b\\':1"},
    {"{'},:[]{':'x'}", "},:[]{", MIDICI_PE_STRING, 11, "x"},
    {"{'a':'\\u0041\\b\\f\\n\\r\\t\\'\\\\\\/'}", "a", MIDICI_PE_STRING, 6, "\\u0041\\b\\f\\n\\r\\t\\'\\\\\\/"},
    {"{'a':'\\uD83D\\uDE00','b':'\\uDE00'}", "a", MIDICI_PE_STRING, 6, "\\uD83D\\uDE00"},
    {"{'a':'\\\\'}", "a", MIDICI_PE_STRING, 6, "\\\\"},
    {"{'\\u0061':1}", "a", MIDICI_PE_NUMBER, 10, "1"},
    {"{'r\\u0065sourc\\u0065':'x'}", "resource", MIDICI_PE_STRING, 23, "x"},
    {"{'\\u004a\\u004B':1}", "JK", MIDICI_PE_NUMBER, 16, "1"},
    {"{'\\b\\f\\n\\r\\t\\'\\\\\\/':1}", "\b\f\n\r\t\"\\/", MIDICI_PE_NUMBER, 20, "1"},
    {"{'\\u0008\\u000c\\u000A\\u000d\\u0009\\u0022\\u005C\\u002f':1}", "\b\f\n\r\t\"\\/", MIDICI_PE_NUMBER, 52, "1"},
    {"{'\\\\u0061':1}", "\\u0061", MIDICI_PE_NUMBER, 11, "1"},
    {"{'\\uD83D\\uDE00':1,'\\uDE00\\uD83D':2,'\\uD83D':3,'\\uDE00':4,'a':5}", "a", MIDICI_PE_NUMBER, 61, "5"},
    {"{'ab':1,'c':2,'a':3,'bc':4}", "bc", MIDICI_PE_NUMBER, 25, "4"},
    {"{'\\u0061\\u0000':1,'a':2}", "a", MIDICI_PE_NUMBER, 22, "2"},
    {" \t\n\r{ \t\n\r'a' \t\n\r: \t\n\r1 \t\n\r} \t\n\r", "a", MIDICI_PE_NUMBER, 21, "1"},
    {"\n{'a'\r\n:\t'b'\n,\n'c' : null\n}\n", "c", MIDICI_PE_NULL, 21, "null"},
    {"{'a':'b' }", "a", MIDICI_PE_STRING, 6, "b"},
    {"{'a':0 ,'b':12\n}", "b", MIDICI_PE_NUMBER, 12, "12"},
};

/* The value, and each beginning of the header: without its last brace it is no object. */
static void test_value_cases(struct lending *lending)
{
    for (size_t i = 0; i < sizeof value_cases / sizeof value_cases[0]; i++) {
        const struct value_case *c = &value_cases[i];
        const char *header = quoted(c->header), *value = quoted(c->value);
        size_t length = strlen(value), object_len = (size_t)(strrchr(header, '}') - header) + 1;
        test_text(lending, header, c->name, found(c->kind, c->place, length));
        check(memcmp(header + c->place, value, length) == 0, "the value's bytes", header);
        for (size_t len = 0; len < object_len; len++)
            test_refused(lending, header, len, 34, header);
    }
}

/* A header, and a name that it has not. */
static const char *const absent_cases[][2] = {
    {"{}", "a"},
    {"{}", ""},
    {" { } ", "a"},
    {"\t{\n}\r", "\xE9"},
    {"{'a':1}", "b"},
    {"{'a':1}", ""},
    {"{'a':1}", "A"},
    {"{'a':1}", "aa"},
    {"{'a':1}", "\xE1"},
    {"{'a':1}", "'a'"},
    {"{'a':1}", "\"a\""},
    {"{'a':1}", "a\x80"},
    {"{'aa':1}", "a"},
    {"{'':1}", "a"},
    {"{'a':'b'}", "b"},
    {"{'a':1,'b':2}", "ab"},
    {"{'a':1,'b':2}", "1"},
    {"{'\\u0061':1}", "\\u0061"},
    {"{'\\u0061':1}", "u0061"},
    {"{'\\u0161':1}", "a"},
    {"{'\\u6100':1}", "a"},
    {"{'\\u6161':1}", "aa"},
    {"{'\\n':1}", "n"},
    {"{'\\n':1}", "\\n"},
    {"{'\\/':1}", "\\/"},
    {"{'\\\\':1}", "\\\\"},
    {"{'\\\\u0061':1}", "a"},
    {"{'\\u00E9':1}", "\xE9"},
    {"{'\\u00e9':1}", "\xC3\xA9"},
    {"{'\\u00E9':1}", "i"},
    {"{'\\u0080':1}", "\x80"},
    {"{'\\u00FF':1}", "\xFF"},
    {"{'a\\u00FFz':1}", "a\xFFz"},
    {"{'\\uD83D\\uDE00':1}", "\xF0\x9F\x98\x80"},
    {"{'\\uD83D\\uDE00':1}", "="},
};

static void test_absent_cases(struct lending *lending)
{
    for (size_t i = 0; i < sizeof absent_cases / sizeof absent_cases[0]; i++)
        test_text(lending, quoted(absent_cases[i][0]), absent_cases[i][1], absent());
}

/* What is no flat object, with a space between. */
static const char no_objects[] =
    "{ } }{ {}{} {}, {},{} {}x {}} {{}} x{} ,{} {,} {}0 {}' {'a':1}{'b':2} {'a':1}'b':2 {}// /**/{} {/**/} \v{} \f{} {\f} "
    "{}\v {}\b \x7F{} \xEF\xBB\xBF{} {\xC2\xA0} \xFB} \xA0{} {'a':1}\xA0 {'a':1}\xFF 1 'a' true null 'a':1 [] [{}] [1] {] "
    "[} {'a'} {'a':} {:1} {:} {'a'=1} {'a'::1} {'a':1:2} {'a':'b':'c'} {'a','b'} {'a':1,} {,'a':1} {'a':1,,'b':2} "
    "{'a':'b''c':1} {'a':1;'b':2} {'a':1] {'a':1) {a:1} {1:1} {true:1} {null:'a'} {a':1} {'a:1} {''a':1} {\\u0022a':1} "
    "{'a\\':1} {'a'\xBB:1} {{'a':1}:1} {[]:1} {'a':1,{}} {'a':{} {'a':0'b':1} {'a'\f:1} {'a':\v1} {'\\\\u00':1,'\\u00':2} "
    "{'a':1,'a':2 {'a':1,'a':2,} {'a':1,'a':65536} {'a':1,'a':[]} {'a':1,'a':2}x {'a':1,'a':2,'\xE9':3} "
    "{'a':1,'\\u0061':-2}";

/* The same, with white space in it. */
static const char *const spaced[] = {
    "",
    " ",
    "\n",
    "{ ",
    " }",
    "{} {}",
    "{'a' : }",
    "{'a' 1}",
    "{'a':1,\n}",
    "{'a':1 'b':2}",
    "{'a':'b' 'c'}",
    "{'a':1 0}",
    "{'a':tr ue}",
    "{'\\u12 4':1}",
};

/* What is no value, and what does not stand in a string. */
static const char no_values[] =
    "{} [] [1] {'b':1} [{}] b b' 'b 'b\\' \\'b\\' \\u0031 - -1 -0 +1 --1 0.0 1.5 1. .5 1.0 1e1 1E1 1e+1 1e-1 0e0 1e0 0x1 "
    "1_0 1' 00 01 000 065535 0a 1a \xB1 65536 65537 65540 65600 66000 70000 100000 655350 131072 4294967295 4294967296 "
    "4294967297 9223372036854775808 18446744073709551615 18446744073709551616 18446744073709551617 "
    "340282366920938463463374607431768211456 t tru True TRUE truee true1 true' trux truefalse f fals False falsee falze "
    "flase n nul Null nulll nil undefined NaN Infinity -Infinity";
static const char no_strings[] =
    "\\a \\x41 \\0 \\v \\U0041 \\N \\u \\u1 \\u12 \\u123 \\u123g \\u+123 \\u-123 \\u0x12 \\u1_23 \\u{41} \\uD83D\\u "
    "\\u004G a\n \t b\r\n \x01 \x1F \xE9 \xC3\xA9 \x80 \xFF a\\ '";

/* An object in which a name stands twice. */
static const char twice[] =
    "{'a':1,'a':1} {'a':1,'a':2} {'a':'x','b':2,'a':null} {'b':1,'a':2,'a':3} {'a':1,'a':2,'a':3} "
    "{'a':1,'a':2,'b':3,'b':4} {'':1,'':2} {'a':1,'\\u0061':2} {'\\u0061':1,'a':2} {'\\u0061b':1,'a\\u0062':2} "
    "{'\\u00e9':1,'\\u00E9':2} {'\\uabcd':1,'\\uABCD':2} {'\\b':1,'\\u0008':2} {'\\f':1,'\\u000c':2} {'\\n':1,'\\u000a':2} "
    "{'\\r':1,'\\u000D':2} {'\\t':1,'\\u0009':2} {'\\'':1,'\\u0022':2} {'\\\\':1,'\\u005C':2} {'\\/':1,'/':2} "
    "{'\\/':1,'\\u002f':2} {'\\u0000':1,'\\u0000':2} {'\x7F':1,'\\u007F':2} {'\\uD83D\\uDE00':1,'\\ud83d\\ude00':2} "
    "{'\\uD83D':1,'\\ud83d':2} {'resource':'SceneList','total':40,'r\\u0065source':'State'}";

/* Each word of a text, with this before and behind it, is refused. */
static void test_refused_words(struct lending *lending, const char *before, const char *words, const char *behind,
                               uint8_t refusal)
{
    char header[256];
    for (size_t len; *words != '\0'; words += len + (words[len] == ' ')) {
        len = strcspn(words, " ");
        snprintf(header, sizeof header, "%s%.*s%s", before, (int)len, words, behind);
        test_refused(lending, quoted(header), strlen(header), refusal, header);
    }
}

static void test_refused_cases(struct lending *lending)
{
    test_refused_words(lending, "", no_objects, "", 34);
    test_refused_words(lending, "{'a':", no_values, "}", 34);
    test_refused_words(lending, "{'a':1,'b':", no_values, ",'c':'d'}", 34);
    test_refused_words(lending, "{'", no_strings, "':1}", 34);
    test_refused_words(lending, "{'a':'", no_strings, "'}", 34);
    for (size_t i = 0; i < sizeof spaced / sizeof spaced[0]; i++)
        test_refused(lending, quoted(spaced[i]), strlen(spaced[i]), 34, spaced[i]);
    test_refused_words(lending, "", twice, "", 35);
    test_refused_words(lending, " ", twice, "\n", 35);
}

/* Nothing is read where a length is 0, also behind a pointer that is not NULL. A name may be a part of the header. */
static void test_slices(struct lending *lending)
{
    const uint8_t header[] = "{\"\":0,\"a\":1}";
    size_t len = sizeof header - 1;
    lent_resize(&lending->name, 0);
    check(same(midici_pe_header_find(header, len, lending->name.at, 0), found(MIDICI_PE_NUMBER, 4, 1)), "an empty name",
          "slices");
    check(same(midici_pe_header_find(header, len, NULL, 0), found(MIDICI_PE_NUMBER, 4, 1)), "a name that is NULL",
          "slices");
    check(same(midici_pe_header_find(header, 0, NULL, 0), refused(34)), "a header of no bytes", "slices");
    check(same(midici_pe_header_find(NULL, 0, NULL, 0), refused(34)), "a header that is NULL", "slices");
    check(same(midici_pe_header_find(header, len, header + 7, 1), found(MIDICI_PE_NUMBER, 10, 1)), "a part as a name",
          "slices");
    check(same(midici_pe_header_find(header, len, header, len), absent()), "the header as a name", "slices");
}

/* ---- Every byte ---- */

/* Each byte in a name, and in a string. Behind a backslash b makes an escape, and d does not. */
static void test_string_byte(struct lending *lending, unsigned byte)
{
    char with_name[] = "{\"a b\":1}", with_string[] = "{\"a\":\"c d\"}", name[] = "a b";
    bool is_plain = byte >= 0x20 && byte <= 0x7F && byte != '"' && byte != '\\';
    with_name[3] = with_string[7] = name[1] = (char)byte;
    lend(&lending->header, with_name, sizeof with_name - 1);
    test_named(lending, name, 3,
               is_plain       ? found(MIDICI_PE_NUMBER, 7, 1)
               : byte == '\\' ? absent()
                              : refused(34),
               "each byte in a name");
    lend(&lending->header, with_string, sizeof with_string - 1);
    test_named(lending, "a", 1, is_plain ? found(MIDICI_PE_STRING, 6, 3) : refused(34), "each byte in a string");
}

/* Each byte behind a backslash, with digits behind it that a \u escape needs. */
static void test_escaped_byte(struct lending *lending, unsigned byte)
{
    const char letters[] = "\"\\/bfnrt", units[] = "\"\\/\b\f\n\r\t";
    char with_name[] = "{\"\\ 0041\":1}", with_string[] = "{\"a\":\"\\ 0041\"}", name[] = "A0041";
    const char *letter = byte == 0 ? NULL : strchr(letters, (int)byte);
    bool is_escape = letter != NULL || byte == 'u';
    with_name[3] = with_string[7] = (char)byte;
    if (letter != NULL)
        name[0] = units[letter - letters];
    lend(&lending->header, with_name, sizeof with_name - 1);
    test_named(lending, name, byte == 'u' ? 1 : 5, is_escape ? found(MIDICI_PE_NUMBER, 10, 1) : refused(34),
               "each byte behind a backslash in a name");
    lend(&lending->header, with_string, sizeof with_string - 1);
    test_named(lending, "a", 1, is_escape ? found(MIDICI_PE_STRING, 6, 6) : refused(34),
               "each byte behind a backslash in a string");
}

/* Each byte as each of the four digits of \u0061. */
static void test_hex_byte(struct lending *lending, unsigned byte, size_t place)
{
    char header[] = "{\"\\u0061\":1}", digits[] = "0061";
    header[4 + place] = digits[place] = (char)byte;
    lend(&lending->header, header, strlen("{\"\\u0061\":1}"));
    unsigned long unit = strtoul(digits, NULL, 16);
    char name = (char)(unit % 128);
    test_named(lending, &name, 1,
               !isxdigit((int)byte) ? refused(34)
               : unit < 128         ? found(MIDICI_PE_NUMBER, 10, 1)
                                    : absent(),
               "each byte as a digit of \\u");
}

static bool is_white_space(unsigned byte) { return byte == 0x20 || byte == 0x09 || byte == 0x0A || byte == 0x0D; }

/* Each byte between two parts of a header, so many times in a row: white space changes nothing but places. */
static void test_between(struct lending *lending, size_t gap, unsigned byte, size_t times)
{
    static const char *const parts[] = {"{",    "\"a\"", ":",     "\"b\"", ",",  "\"c\"", ":",
                                        "true", ",",     "\"d\"", ":",     "12", "}"};
    enum { PARTS = sizeof parts / sizeof parts[0], TRUE_PART = 7, NUMBER_PART = 11 };
    struct bytes header = {.len = 0};
    uint64_t place = 0;
    for (size_t i = 0; i <= PARTS; i++) {
        for (size_t k = 0; i == gap && k < times; k++)
            add_byte(&header, byte);
        if (i == TRUE_PART)
            place = header.len;
        if (i < PARTS)
            add_bytes(&header, parts[i], strlen(parts[i]));
    }
    bool is_longer_number =
        (gap == NUMBER_PART && byte >= '1' && byte <= '9') || (gap == NUMBER_PART + 1 && isdigit((int)byte));
    lend(&lending->header, header.at, header.len);
    test_named(lending, "c", 1,
               is_white_space(byte) || (is_longer_number && times == 1) ? found(MIDICI_PE_TRUE, place, 4) : refused(34),
               "each byte between parts");
}

static void test_bytes(struct lending *lending)
{
    for (unsigned byte = 0; byte < 256; byte++) {
        test_string_byte(lending, byte);
        test_escaped_byte(lending, byte);
        for (size_t place = 0; place < 4; place++)
            test_hex_byte(lending, byte, place);
        for (size_t gap = 0; gap <= 13; gap++)
            test_between(lending, gap, byte, 1);
    }
    for (size_t gap = 0; gap <= 13; gap++)
        for (size_t times = 2; times < 100; times++)
            test_between(lending, gap, " \t\n\r"[times % 4], times);
}

/* ---- Every unit and every number ---- */

/* Each unit as the only one of a name, its digits A to F as large or small letters: the byte of that number finds it up to
 * 7F, and no byte above. It is the same name in both spellings. */
static void test_unit(struct lending *lending, unsigned unit)
{
    char large[16], small[16], both[32];
    uint8_t name = (uint8_t)(unit % 256);
    midici_pe_found wanted = unit <= 0x7F ? found(MIDICI_PE_NUMBER, 10, 1) : absent();
    snprintf(large, sizeof large, "{\"\\u%04X\":1}", unit);
    lend(&lending->header, large, strlen(large));
    test_named(lending, &name, 1, wanted, "each unit");
    snprintf(small, sizeof small, "{\"\\u%04x\":1}", unit);
    lend(&lending->header, small, strlen(small));
    test_named(lending, &name, 1, wanted, "each unit, in small letters");
    snprintf(both, sizeof both, "{\"\\u%04X\":1,\"\\u%04x\":2}", unit, unit);
    lend(&lending->header, both, strlen(both));
    test_named(lending, "a", 1, refused(35), "each unit twice");
}

/* Two names that differ in one bit of one unit. */
static void test_unit_bits(struct lending *lending, unsigned unit)
{
    char header[64];
    for (unsigned bit = 0; bit < 16; bit++) {
        snprintf(header, sizeof header, "{\"x\\u%04X\":1,\"x\\u%04X\":2,\"y\":3}", unit, unit ^ 1u << bit);
        test_text(lending, header, "y", found(MIDICI_PE_NUMBER, 29, 1));
    }
}

/* A byte that stands for itself, and its \u escape, are one name. */
static void test_plain_unit(struct lending *lending, unsigned byte)
{
    char header[32];
    snprintf(header, sizeof header, "{\"%c\":1,\"\\u%04X\":2}", (char)byte, byte);
    lend(&lending->header, header, strlen(header));
    test_named(lending, "", 0, refused(35), "a byte and its escape");
}

static void test_units(struct lending *lending)
{
    const unsigned units[] = {0,      0x0A,   0x61,   0x7F,   0x80,   0xFF,   0x100,
                              0x7FFF, 0x8000, 0xD800, 0xDBFF, 0xDC00, 0xDFFF, 0xFFFF};
    for (unsigned unit = 0; unit <= 0xFFFF; unit++)
        test_unit(lending, unit);
    for (size_t i = 0; i < sizeof units / sizeof units[0]; i++)
        test_unit_bits(lending, units[i]);
    for (unsigned byte = 0x20; byte <= 0x7F; byte++)
        if (byte != '"' && byte != '\\')
            test_plain_unit(lending, byte);
}

static void test_number(struct lending *lending, const char *number, bool is_good, const char *of)
{
    static struct bytes header;
    header.len = 0;
    add_bytes(&header, "{\"a\":", 5);
    add_bytes(&header, number, strlen(number));
    add_byte(&header, '}');
    lend(&lending->header, header.at, header.len);
    test_named(lending, "a", 1, is_good ? found(MIDICI_PE_NUMBER, 5, strlen(number)) : refused(34), of);
}

/* Each number of up to five digits, the same with zeros before it, and numbers of every length. */
static void test_numbers(struct lending *lending)
{
    char digits[MOST_BYTES];
    for (unsigned number = 0; number <= 99999; number++) {
        snprintf(digits, sizeof digits, "%u", number);
        test_number(lending, digits, number <= 65535, "each number");
        if (number < 1000 || number % 997 == 0) {
            snprintf(digits, sizeof digits, "0%u", number);
            test_number(lending, digits, false, "a leading zero");
        }
    }
    for (size_t len = 6; len <= MOST_BYTES - 6; len++) {
        memset(digits, '0', len);
        digits[0] = "16"[len % 2];
        digits[len] = '\0';
        digits[len - 1] = "01"[len / 2 % 2];
        test_number(lending, digits, false, "long numbers");
    }
}

/* ---- Every length ---- */

/* A header with white space before or behind it that makes it so long. */
static void test_padded(struct lending *lending, const char *text, size_t len, bool is_before, midici_pe_found wanted)
{
    size_t text_len = strlen(text), before = is_before ? len - text_len : 0;
    struct lent *header = &lending->header;
    lent_resize(header, len);
    memset(header->at, ' ', len);
    memcpy(header->at + before, text, text_len);
    lent_keep(header);
    if (wanted.kind != MIDICI_PE_ABSENT)
        wanted.place += before;
    test_named(lending, "a", 1, len > MOST_BYTES ? refused(33) : wanted, text);
}

static void test_length(struct lending *lending, size_t len)
{
    for (int is_before = 0; is_before < 2; is_before++) {
        test_padded(lending, "{\"a\":1}", len, is_before, found(MIDICI_PE_NUMBER, 5, 1));
        test_padded(lending, "{\"b\":1}", len, is_before, absent());
        test_padded(lending, "{\"a\":-1}", len, is_before, refused(34));
        test_padded(lending, "{\"a\":1,\"a\":-1}", len, is_before, refused(34));
        test_padded(lending, "{\"a\":1,\"a\":1}", len, is_before, refused(35));
    }
}

/* Lends a run of one byte with text before and behind it; the last of the run is another byte where that is asked. */
static void lend_run(struct lent *lent, const char *before, char byte, size_t len, bool is_other, const char *behind)
{
    size_t before_len = strlen(before), behind_len = strlen(behind);
    lent_resize_or_null(lent, before_len + len + behind_len);
    if (lent->len > 0) {
        memcpy(lent->at, before, before_len);
        memset(lent->at + before_len, byte, len);
        if (is_other)
            lent->at[before_len + len - 1]++;
        memcpy(lent->at + before_len + len, behind, behind_len);
    }
    lent_keep(lent);
}

/* A name of so many bytes, and given names that are it or nearly it. */
static void test_name_length(struct lending *lending, size_t len)
{
    const size_t lens[] = {len, len - 1, len + 1, len / 2, 2 * len, len + MOST_BYTES, len % 256, len + 65536, 0};
    midici_pe_found wanted = len + 6 > MOST_BYTES ? refused(33) : found(MIDICI_PE_NUMBER, len + 4, 1);
    midici_pe_found other = len + 6 > MOST_BYTES ? refused(33) : absent();
    lend_run(&lending->header, "{\"", 'n', len, false, "\":1}");
    for (size_t i = 0; i < sizeof lens / sizeof lens[0]; i++) {
        lend_run(&lending->name, "", 'n', lens[i], false, "");
        check(same(call_lent(lending, "name lengths"), lens[i] == len ? wanted : other), "the answer", "name lengths");
    }
    lend_run(&lending->name, "", 'n', len, true, "");
    check(same(call_lent(lending, "name lengths"), other), "another last byte", "name lengths");
    lend_run(&lending->name, "", 'n', len - 1, false, "\xEE");
    check(same(call_lent(lending, "name lengths"), other), "a last byte above 7F", "name lengths");
}

/* A string of so many bytes. */
static void test_string_length(struct lending *lending, size_t len)
{
    lend_run(&lending->header, "{\"a\":\"", 's', len, false, "\"}");
    test_named(lending, "a", 1, len + 8 > MOST_BYTES ? refused(33) : found(MIDICI_PE_STRING, 6, len), "string lengths");
}

static void test_lengths(void)
{
    const size_t lens[] = {MOST_BYTES + 9, 5000,       2 * MOST_BYTES,     65535,     65536,
                           65537,          65536 + 16, 65536 + MOST_BYTES, MORE_BYTES};
    struct lending lending;
    make_lending(&lending, MORE_BYTES + MOST_BYTES);
    for (size_t len = 100; len <= MOST_BYTES + 4; len += len < MOST_BYTES - 10 ? 37 : 1)
        test_length(&lending, len);
    for (size_t i = 0; i < sizeof lens / sizeof lens[0]; i++)
        test_length(&lending, lens[i]);
    for (size_t len = 1; len <= MOST_BYTES; len += len < 300 || len > MOST_BYTES - 20 ? 1 : 41) {
        test_name_length(&lending, len);
        test_string_length(&lending, len);
    }
    free_lending(&lending);
}

/* ---- Many names ---- */

/* A header of as many different names as fit, and the place of each value. */
struct full {
    struct bytes header;
    size_t names, name_len[MOST_NAMES + 1];
    uint8_t name[MOST_NAMES + 1][2];
    uint64_t place[MOST_NAMES + 1];
};

/* Adds a name with the value 0, if there is room for it and the last brace. */
static bool add_name(struct full *full, const uint8_t *name, size_t len)
{
    struct bytes *header = &full->header;
    if (header->len + len + 6 > MOST_BYTES)
        return false;
    add_byte(header, full->names == 0 ? '{' : ',');
    add_byte(header, '"');
    add_bytes(header, name, len);
    add_bytes(header, "\":0", 3);
    memcpy(full->name[full->names], name, len);
    full->name_len[full->names] = len;
    full->place[full->names++] = header->len - 1;
    return true;
}

static bool is_plain(unsigned byte) { return byte != '"' && byte != '\\'; }

/* First the empty name, then those of one byte, then those of two. */
static void fill_header(struct full *full)
{
    bool fits = add_name(full, (const uint8_t *)"", 0);
    for (uint8_t a = 0x20; a <= 0x7F; a++)
        if (is_plain(a))
            add_name(full, &a, 1);
    for (unsigned pair = 0x2020; pair <= 0x7F7F && fits; pair++) {
        const uint8_t name[2] = {(uint8_t)(pair / 256), (uint8_t)(pair % 256)};
        if (name[1] >= 0x20 && name[1] <= 0x7F && is_plain(name[0]) && is_plain(name[1]))
            fits = add_name(full, name, 2);
    }
    add_byte(&full->header, '}');
}

/* The last name is name k once more. */
static void test_last_twice(struct lending *lending, const struct full *full, size_t k)
{
    struct full changed = *full;
    changed.header.len = full->place[full->names - 2] + 1;
    changed.names--;
    add_name(&changed, full->name[k], full->name_len[k]);
    add_byte(&changed.header, '}');
    lend(&lending->header, changed.header.at, changed.header.len);
    test_named(lending, full->name[k], full->name_len[k], refused(35), "a name twice among many");
    test_named(lending, full->name[k / 2], full->name_len[k / 2], refused(35), "another name twice among many");
}

/* Each name is found; and where the last one is another of them once more, that one is twice. */
static void test_many_names(struct lending *lending)
{
    static struct full full;
    fill_header(&full);
    check(full.names == MOST_NAMES && full.header.len + 7 > MOST_BYTES, "as many names as fit", "many names");
    for (size_t k = 0; k < full.names - 1; k++)
        test_last_twice(lending, &full, k);
    lend(&lending->header, full.header.at, full.header.len);
    for (size_t k = 0; k < full.names; k++)
        test_named(lending, full.name[k], full.name_len[k], found(MIDICI_PE_NUMBER, full.place[k], 1), "many names");
    test_named(lending, "no name", 7, absent(), "many names");
}

/* ---- Changed headers, held against the model ---- */

/* How often each answer was met: a kind, or a refusal from 33 on. */
enum { KINDS = MIDICI_PE_NULL + 1, ANSWERS = KINDS + 3 };

static void test_as_model(struct lending *lending, const struct bytes *header, const char *name,
                          unsigned long seen[ANSWERS])
{
    lend(&lending->header, header->at, header->len);
    lend(&lending->name, name, strlen(name));
    midici_pe_found answer = call_lent(lending, "changed headers");
    unsigned which = answer.refusal == 0 ? answer.kind : KINDS + answer.refusal - 33u;
    check(which < ANSWERS, "a kind or a refusal", "changed headers");
    seen[which < ANSWERS ? which : 0]++;
}

/* A header with `by` in the place of `len` bytes from `at` on. */
static struct bytes replaced(const struct bytes *header, size_t at, size_t len, const void *by, size_t by_len)
{
    struct bytes changed = {.len = 0};
    add_bytes(&changed, header->at, at);
    add_bytes(&changed, by, by_len);
    add_bytes(&changed, header->at + at + len, header->len - at - len);
    return changed;
}

/* Each byte at each place: in the place of another one, and before it. */
static void test_every_change(struct lending *lending, unsigned long seen[ANSWERS])
{
    const char *text =
        quoted("{'status':200 , 'r\\u0065source':'S\\n\\u0041','t':true,\n'f':false,'n':null,'':0,'\\uD83D\\uDE00':65535}");
    struct bytes header = {.len = 0};
    add_bytes(&header, text, strlen(text));
    for (size_t at = 0; at < header.len; at++)
        for (unsigned value = 0; value < 256; value++) {
            uint8_t byte = (uint8_t)value;
            struct bytes changed = replaced(&header, at, 1, &byte, 1), longer = replaced(&header, at, 0, &byte, 1);
            test_as_model(lending, &changed, value % 2 == 0 ? "resource" : "n", seen);
            test_as_model(lending, &longer, value % 2 == 0 ? "f" : "", seen);
        }
    for (size_t len = 0; len < header.len; len++)
        test_refused(lending, header.at, len, 34, "a header cut off");
}

/* Where a pair may be added: behind the first brace. */
static size_t behind_brace(const struct bytes *header)
{
    const uint8_t *brace = memchr(header->at, '{', header->len);
    return brace == NULL ? 0 : (size_t)(brace - header->at) + 1;
}

/* One change: a part of the header stands once more, or in the place of another; some bytes go, or a piece stands for them;
 * a piece or a pair is added. */
static struct bytes any_change(const struct bytes *header, uint64_t *seed)
{
    static const char *const pieces[] = {" ",    "\n",    "\t\r", "a",     "b",       "c",       "0",   "1",
                                         "5",    "\"",    "\\",   "{",     "}",       ":",       ",",   "[",
                                         "-",    ".",     "\x7F", "\x80",  "\\u0061", "\\u0062", "\\n", "\\\"",
                                         "true", "false", "null", "65535", "65536"};
    static const char *const pairs[] = {"\"a\":1,",    "\"b\" :\"a\",",     " \"c\":null,\n",
                                        "\"\":false,", "\"\\u0061\":true,", "\"resource\":1,"};
    size_t at = any_below(seed, header->len + 1), left = header->len - at, len = any_below(seed, left < 4 ? left + 1 : 4);
    size_t from = any_below(seed, header->len + 1), part = any_below(seed, header->len - from + 1);
    const char *piece = pieces[any_below(seed, sizeof pieces / sizeof pieces[0])];
    const char *pair = pairs[any_below(seed, sizeof pairs / sizeof pairs[0])];
    switch (any_below(seed, 8)) {
    case 0:
        return replaced(header, at, 0, header->at + from, part);
    case 1:
        return replaced(header, at, left < part ? left : part, header->at + from, part);
    case 2:
        return replaced(header, at, len, NULL, 0);
    case 3:
        return replaced(header, at, len, piece, strlen(piece));
    case 4:
        return replaced(header, at, 0, piece, strlen(piece));
    default:
        return replaced(header, behind_brace(header), 0, pair, strlen(pair));
    }
}

static void test_random_changes(struct lending *lending, unsigned long seen[ANSWERS])
{
    enum { TIMES = 100000, MOST_CHANGES = 3, CASES = sizeof value_cases / sizeof value_cases[0] };
    uint64_t seed = 2;
    for (int i = 0; i < TIMES; i++) {
        const struct value_case *c = &value_cases[any_below(&seed, CASES)];
        struct bytes header = {.len = 0};
        add_bytes(&header, quoted(c->header), strlen(c->header));
        for (size_t changes = 1 + any_below(&seed, MOST_CHANGES); changes > 0; changes--)
            header = any_change(&header, &seed);
        test_as_model(lending, &header, any_below(&seed, 2) == 0 ? c->name : value_cases[any_below(&seed, CASES)].name,
                      seen);
    }
}

/* Each answer is met often, but for 33: no changed header is so long. */
static void test_changes(struct lending *lending)
{
    unsigned long seen[ANSWERS] = {0};
    test_every_change(lending, seen);
    test_random_changes(lending, seen);
    for (int i = 0; i < ANSWERS; i++)
        check(i == KINDS || seen[i] > 300, "each answer is met", "changed headers");
}

void test_header_find(void)
{
    struct lending lending;
    make_lending(&lending, MOST_BYTES + 100);
    test_value_cases(&lending);
    test_absent_cases(&lending);
    test_refused_cases(&lending);
    test_slices(&lending);
    test_bytes(&lending);
    test_units(&lending);
    test_numbers(&lending);
    test_lengths();
    test_many_names(&lending);
    test_changes(&lending);
    free_lending(&lending);
}
