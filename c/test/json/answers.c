/* answers: asks midici_pe_header_find for each case of the standard input, and writes what it answers.
 *
 * A case is a header and a name, each as its length in four bytes and its bytes. An answer is 18 bytes: refusal, kind, and
 * place and length in eight bytes each. Numbers have their low byte first. */
#include "midici_pe.h"

#include <stdbool.h>
#include <stdio.h>
#include <stdlib.h>

enum { MOST_BYTES = 65536 };

static void must(bool done, const char *what)
{
    if (done)
        return;
    fprintf(stderr, "answers: %s\n", what);
    exit(2);
}

/* Reads a header or a name, and its length; false where the input ends before it. */
static bool read_bytes(uint8_t *bytes, size_t *len)
{
    uint8_t count[4];
    size_t got = fread(count, 1, sizeof count, stdin);
    if (got == 0)
        return false;
    must(got == sizeof count, "a length is cut off");
    *len = count[0] | (size_t)count[1] << 8 | (size_t)count[2] << 16 | (size_t)count[3] << 24;
    must(*len <= MOST_BYTES && fread(bytes, 1, *len, stdin) == *len, "a header or a name is too long or cut off");
    return true;
}

static void write_number(uint64_t number, int bytes)
{
    for (; bytes > 0; bytes--, number /= 256)
        putchar((int)(number % 256));
}

int main(void)
{
    static uint8_t header[MOST_BYTES], name[MOST_BYTES];
    size_t header_len, name_len;
    while (read_bytes(header, &header_len)) {
        must(read_bytes(name, &name_len), "a name is missing");
        midici_pe_found found = midici_pe_header_find(header, header_len, name, name_len);
        write_number(found.refusal, 1);
        write_number(found.kind, 1);
        write_number(found.place, 8);
        write_number(found.length, 8);
    }
    must(fflush(stdout) == 0 && !ferror(stdin), "the input or the output fails");
    return 0;
}
