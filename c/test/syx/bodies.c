/* bodies FILE: prints the messages of a .syx file, the bytes of each body in a line of its own, and last how many are torn.
 */
#include "midici_pe.h"

#include <inttypes.h>
#include <stdbool.h>
#include <stdio.h>
#include <stdlib.h>

static void must(bool done, const char *what)
{
    if (done)
        return;
    perror(what);
    exit(2);
}

/* A whole file in memory, and its length. */
static uint8_t *read_file(const char *name, size_t *len)
{
    FILE *from = fopen(name, "rb");
    must(from != NULL && fseek(from, 0, SEEK_END) == 0, name);
    long end = ftell(from);
    must(end >= 0 && fseek(from, 0, SEEK_SET) == 0, name);
    *len = (size_t)end;
    uint8_t *bytes = malloc(*len + 1);
    must(bytes != NULL && fread(bytes, 1, *len, from) == *len, name);
    fclose(from);
    return bytes;
}

/* A column for so many messages. */
static uint64_t *make_column(size_t messages)
{
    uint64_t *column = calloc(messages + 1, sizeof *column);
    must(column != NULL, "a column");
    return column;
}

static void print_body(const uint8_t *body, uint64_t len)
{
    for (uint64_t i = 0; i < len; i++)
        printf("%s%02X", i == 0 ? "" : " ", body[i]);
    printf("\n");
}

int main(int argc, char **argv)
{
    if (argc != 2) {
        fprintf(stderr, "usage: bodies FILE\n");
        return 2;
    }
    size_t len, most;
    uint8_t *file = read_file(argv[1], &len);
    most = len / 2;
    uint64_t *places = make_column(most), *lengths = make_column(most);
    midici_pe_syx listed = midici_pe_syx_list(file, len, places, most, lengths, most);
    if (listed.refusal != MIDICI_PE_OK)
        printf("refusal %d\n", listed.refusal);
    for (uint64_t i = 0; i < listed.messages; i++)
        print_body(file + places[i], lengths[i]);
    printf("torn: %" PRIu64 "\n", listed.torn);
    free(file);
    free(places);
    free(lengths);
    return listed.refusal == MIDICI_PE_OK ? 0 : 1;
}
