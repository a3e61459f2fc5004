/* Lent memory for the tests.
 *
 * A lent slice ends where a page begins that nobody may touch: a call that reads or writes past it ends the program. The
 * bytes before it, back to another such page, are known, and `lent_guarded` says whether they still are. */
#ifndef LENT_H
#define LENT_H

#include <stdbool.h>
#include <stddef.h>
#include <stdint.h>

struct lent {
    uint8_t *room; /* all that may be touched */
    size_t room_len;
    uint8_t *kept; /* a copy of the room */
    uint8_t *at;   /* the slice: the last `len` bytes of the room, or NULL */
    size_t len;
};

/* Makes room for slices of up to `most` bytes, and a slice of so many, filled with known bytes. */
void lent_make(struct lent *lent, size_t most);
void lent_free(struct lent *lent);

/* Makes the slice `len` bytes long. What it held at the room's end stays there; what is before it gets its known bytes. */
void lent_resize(struct lent *lent, size_t len);

/* Makes the slice NULL with length 0. */
void lent_null(struct lent *lent);

/* Makes the slice `len` bytes long, and NULL where that is 0. */
void lent_resize_or_null(struct lent *lent, size_t len);

/* Fills the slice with known bytes, none of them 0. */
void lent_fill(struct lent *lent);

/* Keeps what the slice holds now. */
void lent_keep(struct lent *lent);

/* Does the slice hold what was kept, from byte `from` on? */
bool lent_same_from(const struct lent *lent, size_t from);

/* Are the bytes before the slice the known ones? */
bool lent_guarded(const struct lent *lent);

/* The slice as one of larger elements. */
uint64_t *lent_words(const struct lent *lent);
uint16_t *lent_u16s(const struct lent *lent);

#endif
