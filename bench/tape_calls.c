/* tape_calls calls <TAPE   reads a tape into a list, then makes its calls, and prints how many nanoseconds these took
 * tape_calls lines <TAPE   the same, with the line of each call written into memory
 * tape_calls print <TAPE   prints the lines
 * tape_calls read <TAPE    only reads the tape, block by block */
#define _POSIX_C_SOURCE 199309L
#include "midici_pe.h"

#include <stdbool.h>
#include <stdio.h>
#include <stdlib.h>
#include <string.h>
#include <time.h>
#include <unistd.h>

#define LENT(a) a, sizeof a / sizeof *a
enum { PEERS = 2, HEADER = 256, BODY = 4096, RECORDS = 64, LONGEST_LINE = 46, BLOCK = 131072 };

static const midici_pe_shape shape = {PEERS, HEADER, BODY, RECORDS};
static uint64_t numbers[MIDICI_PE_NUMBERS_LEN(PEERS)], fragments[MIDICI_PE_INDEX_LEN(PEERS, RECORDS)];
static uint8_t headers[MIDICI_PE_HEADERS_LEN(PEERS, HEADER)], arenas[MIDICI_PE_ARENAS_LEN(PEERS, BODY)];
static uint8_t out_header[HEADER], out_body[BODY];
static uint64_t out_peers[MIDICI_PE_PLACES(PEERS)], out_request_ids[MIDICI_PE_PLACES(PEERS)];

typedef struct command {
    uint64_t now_ms;
    const uint8_t *chunk;
    uint32_t peer;
    uint16_t chunk_len;
    uint8_t code, request_id;
} command;

static void must(bool done, const char *what)
{
    if (done)
        return;
    fprintf(stderr, "tape_calls: %s\n", what);
    exit(2);
}

/* The bytes of a tape, and behind them room for the operands of one command that is cut off. */
static uint8_t *read_bytes(size_t *len)
{
    must(fseek(stdin, 0, SEEK_END) == 0, "the tape is no file");
    *len = (size_t)ftell(stdin);
    rewind(stdin);
    uint8_t *bytes = calloc(*len + 15, 1);
    must(bytes != NULL && fread(bytes, 1, *len, stdin) == *len, "the tape cannot be read");
    return bytes;
}

static void read_blocks(void)
{
    static uint8_t block[BLOCK];
    ssize_t got;
    do
        got = read(STDIN_FILENO, block, sizeof block);
    while (got > 0);
    must(got == 0, "the tape cannot be read");
}

/* A number with its low byte first. */
static uint64_t number(const uint8_t *bytes, int len)
{
    uint64_t n = 0;
    while (len-- > 0)
        n = n << 8 | bytes[len];
    return n;
}

/* Reads the command that bytes begin with: how many it has. */
static size_t read_command(const uint8_t *bytes, command *c)
{
    memset(c, 0, sizeof *c);
    c->code = bytes[0];
    if (c->code == 4) {
        c->now_ms = number(bytes + 1, 8);
        return 9;
    }
    c->peer = (uint32_t)number(bytes + 1, 4);
    if (c->code == 3)
        return 5;
    if (c->code == 2) {
        c->request_id = bytes[5];
        return 6;
    }
    must(c->code == 1, "a command is unknown");
    c->now_ms = number(bytes + 5, 8);
    c->chunk_len = (uint16_t)number(bytes + 13, 2);
    c->chunk = bytes + 15;
    return 15 + (size_t)c->chunk_len;
}

/* All commands of a tape that ends behind one. */
static command *read_tape(const uint8_t *bytes, size_t len, size_t *count)
{
    command *commands = malloc((len / 5 + 1) * sizeof *commands);
    must(commands != NULL, "no memory for the list");
    *count = 0;
    size_t at = 0;
    while (at < len)
        at += read_command(bytes + at, &commands[(*count)++]);
    must(at == len, "a command is cut off");
    return commands;
}

static char *put_number(char *to, uint64_t n)
{
    char digits[20];
    int len = 0;
    do
        digits[len++] = (char)('0' + n % 10);
    while ((n /= 10) > 0);
    while (len > 0)
        *to++ = digits[--len];
    return to;
}

static char *put_fed(char *to, midici_pe_fed fed)
{
    if (!fed.whole)
        return put_number(to, fed.refusal);
    *to++ = 'w';
    *to++ = ' ';
    to = put_number(to, fed.header_len);
    *to++ = ' ';
    return put_number(to, fed.body_len);
}

static char *put_counted(char *to, midici_pe_answer answer)
{
    if (answer.refusal == MIDICI_PE_OK)
        return put_number(to, answer.count);
    *to++ = 'r';
    return put_number(to, answer.refusal);
}

static midici_pe_fed feed(const command *c)
{
    return midici_pe_feed(shape, LENT(numbers), LENT(fragments), LENT(headers), LENT(arenas), c->peer, c->chunk,
                          c->chunk_len, c->now_ms, LENT(out_header), LENT(out_body));
}

static midici_pe_answer other(const command *c)
{
    switch (c->code) {
    case 2:
        return midici_pe_cancel(shape, LENT(numbers), c->peer, c->request_id);
    case 3:
        return midici_pe_drop_peer(shape, LENT(numbers), c->peer);
    default:
        return midici_pe_poll(shape, LENT(numbers), c->now_ms, LENT(out_peers), LENT(out_request_ids));
    }
}

static void make_calls(const command *commands, size_t count)
{
    for (size_t k = 0; k < count; k++) {
        if (commands[k].code == 1)
            feed(&commands[k]);
        else
            other(&commands[k]);
    }
}

static char *make_lines(const command *commands, size_t count, char *to)
{
    for (size_t k = 0; k < count; k++) {
        to = put_number(to, commands[k].code);
        *to++ = ' ';
        to = commands[k].code == 1 ? put_fed(to, feed(&commands[k])) : put_counted(to, other(&commands[k]));
        *to++ = '\n';
    }
    return to;
}

static double now_ns(void)
{
    struct timespec t;
    must(clock_gettime(CLOCK_MONOTONIC, &t) == 0, "no clock");
    return 1e9 * (double)t.tv_sec + (double)t.tv_nsec;
}

/* Makes the calls of a tape, with their lines or without, and prints the lines or the time. */
static void play(bool lines, bool print)
{
    size_t len, count;
    uint8_t *tape = read_bytes(&len);
    command *commands = read_tape(tape, len, &count);
    char *text = malloc(count * LONGEST_LINE), *end = text;
    must(text != NULL, "no memory for the lines");
    must(midici_pe_new(shape, LENT(numbers), LENT(fragments), LENT(headers), LENT(arenas)).refusal == MIDICI_PE_OK,
         "no table");
    double begun = now_ns();
    if (lines)
        end = make_lines(commands, count, text);
    else
        make_calls(commands, count);
    double taken = now_ns() - begun;
    if (print)
        must(fwrite(text, 1, (size_t)(end - text), stdout) == (size_t)(end - text), "the output fails");
    else
        printf("%.0f\n", taken);
    must(fflush(stdout) == 0, "the output fails");
    free(text);
    free(commands);
    free(tape);
}

int main(int argc, char **argv)
{
    const char *word = argc == 2 ? argv[1] : "";
    bool print = strcmp(word, "print") == 0, lines = print || strcmp(word, "lines") == 0;
    bool calls = lines || strcmp(word, "calls") == 0;
    must(calls || strcmp(word, "read") == 0, "usage: tape_calls calls, lines, print or read, with a tape as its input");
    if (calls)
        play(lines, print);
    else
        read_blocks();
    return 0;
}
