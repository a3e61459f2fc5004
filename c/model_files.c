/* What the reader of .syx files should answer and list. */
#include "table.h"

enum { SYSEX_START = 0xF0, SYSEX_END = 0xF7 };

/* Reads a file byte by byte: how many messages are whole and how many are torn. Where the columns are not NULL, the whole
 * ones are listed there. */
static midici_pe_syx read_file(const struct lent *file, uint64_t *places, uint64_t *lengths)
{
    midici_pe_syx found = {0, 0, 0};
    bool in_message = false;
    uint64_t body = 0; /* where the body of the message begins */
    for (size_t i = 0; i < file->len; i++) {
        uint8_t byte = file->at[i];
        if (in_message && byte == SYSEX_END) {
            if (places != NULL) {
                places[found.messages] = body;
                lengths[found.messages] = i - body;
            }
            found.messages++;
            in_message = false;
        } else if (in_message && byte > 0x7F) {
            found.torn++;
            in_message = false;
        }
        if (byte == SYSEX_START) {
            in_message = true;
            body = i + 1;
        }
    }
    if (in_message)
        found.torn++;
    return found;
}

midici_pe_syx model_syx_list(const struct lent *file, struct lent *places, struct lent *lengths)
{
    midici_pe_syx found = read_file(file, NULL, NULL);
    if (found.messages > places->len / 8 || found.messages > lengths->len / 8)
        return (midici_pe_syx){.refusal = 32};
    return read_file(file, (uint64_t *)(void *)places->kept, (uint64_t *)(void *)lengths->kept);
}
