/* A table of lent slices. */
#include "table.h"

bool shape_in_range(midici_pe_shape shape)
{
    return shape.max_peers <= MIDICI_PE_MAX_PEERS && shape.header_bytes <= MIDICI_PE_HEADER_BYTES &&
           shape.tx_bytes <= MIDICI_PE_TX_BYTES && shape.fragment_records <= MIDICI_PE_FRAGMENT_RECORDS;
}

bool table_has_words(int slice) { return slice == NUMBERS || slice == INDEX || slice >= OUT_PEERS; }

size_t shape_asks(midici_pe_shape shape, int slice)
{
    switch (slice) {
    case NUMBERS:
        return 8 * MIDICI_PE_NUMBERS_LEN(shape.max_peers);
    case INDEX:
        return 8 * MIDICI_PE_INDEX_LEN(shape.max_peers, shape.fragment_records);
    case HEADERS:
        return MIDICI_PE_HEADERS_LEN(shape.max_peers, shape.header_bytes);
    case ARENAS:
        return MIDICI_PE_ARENAS_LEN(shape.max_peers, shape.tx_bytes);
    case OUT_HEADER:
        return shape.header_bytes;
    case OUT_BODY:
        return shape.tx_bytes;
    default:
        return 8 * MIDICI_PE_PLACES(shape.max_peers);
    }
}

void table_make(struct table *table, midici_pe_shape shape, size_t extra_elements)
{
    table->shape = shape;
    for (int i = 0; i < LENT; i++)
        lent_make(&table->lent[i], shape_asks(shape, i) + extra_elements * (table_has_words(i) ? 8 : 1));
}

void table_free(struct table *table)
{
    for (int i = 0; i < LENT; i++)
        lent_free(&table->lent[i]);
}

void table_keep(struct table *table)
{
    for (int i = 0; i < LENT; i++)
        lent_keep(&table->lent[i]);
}

bool table_same(const struct table *table)
{
    for (int i = 0; i < LENT; i++)
        if (!lent_same_from(&table->lent[i], 0))
            return false;
    return true;
}

bool table_guarded(const struct table *table)
{
    for (int i = 0; i < LENT; i++)
        if (!lent_guarded(&table->lent[i]))
            return false;
    return true;
}

bool told_same(struct told a, struct told b)
{
    bool is_same = a.refusal == b.refusal && a.value == b.value;
    for (int i = 0; i < MOST_TOLD; i++)
        is_same = is_same && a.numbers[i] == b.numbers[i];
    return is_same;
}
