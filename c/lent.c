/* Lent memory for the tests. */
#define _DEFAULT_SOURCE /* mmap's MAP_ANONYMOUS */
#include "lent.h"

#include <stdio.h>
#include <stdlib.h>
#include <string.h>
#include <sys/mman.h>
#include <unistd.h>

/* Under the address sanitizer what is before a slice may not even be read by instrumented code. */
#if defined(__has_feature)
#if __has_feature(address_sanitizer)
#define WITH_ASAN
#endif
#elif defined(__SANITIZE_ADDRESS__)
#define WITH_ASAN
#endif
#ifdef WITH_ASAN
#include <sanitizer/asan_interface.h>
#define SHUT(from, len) __asan_poison_memory_region(from, len)
#define OPEN(from, len) __asan_unpoison_memory_region(from, len)
#else
#define SHUT(from, len) ((void)(from), (void)(len))
#define OPEN(from, len) ((void)(from), (void)(len))
#endif

static const uint8_t KNOWN = 0xA5;

static size_t page_len(void) { return (size_t)sysconf(_SC_PAGESIZE); }

static void give_up(const char *what)
{
    perror(what);
    exit(2);
}

void lent_make(struct lent *lent, size_t most)
{
    size_t page = page_len(), room_len = (most / page + 1) * page;
    uint8_t *pages = mmap(NULL, room_len + 2 * page, PROT_NONE, MAP_PRIVATE | MAP_ANONYMOUS, -1, 0);
    if (pages == MAP_FAILED || mprotect(pages + page, room_len, PROT_READ | PROT_WRITE) != 0)
        give_up("memory for a slice");
    lent->room = pages + page;
    lent->room_len = room_len;
    lent->kept = malloc(room_len);
    if (lent->kept == NULL)
        give_up("memory for a copy");
    lent_resize(lent, most);
    lent_fill(lent);
}

void lent_free(struct lent *lent)
{
    free(lent->kept);
    OPEN(lent->room, lent->room_len);
    if (munmap(lent->room - page_len(), lent->room_len + 2 * page_len()) != 0)
        give_up("memory of a slice");
}

void lent_resize(struct lent *lent, size_t len)
{
    lent->len = len;
    lent->at = lent->room + lent->room_len - len;
    OPEN(lent->room, lent->room_len);
    memset(lent->room, KNOWN, lent->room_len - len);
    SHUT(lent->room, lent->room_len - len);
}

void lent_null(struct lent *lent)
{
    lent_resize(lent, 0);
    lent->at = NULL;
}

void lent_resize_or_null(struct lent *lent, size_t len)
{
    lent_resize(lent, len);
    if (len == 0)
        lent_null(lent);
}

void lent_fill(struct lent *lent)
{
    for (size_t i = 0; i < lent->len; i++)
        lent->at[i] = (uint8_t)(1 + i % 255);
}

void lent_keep(struct lent *lent)
{
    if (lent->len > 0)
        memcpy(lent->kept, lent->at, lent->len);
}

bool lent_same_from(const struct lent *lent, size_t from)
{
    return from >= lent->len || memcmp(lent->kept + from, lent->at + from, lent->len - from) == 0;
}

bool lent_guarded(const struct lent *lent)
{
    size_t before = lent->room_len - lent->len;
    OPEN(lent->room, before);
    bool guarded = before == 0 || (lent->room[0] == KNOWN && memcmp(lent->room, lent->room + 1, before - 1) == 0);
    SHUT(lent->room, before);
    return guarded;
}

uint64_t *lent_words(const struct lent *lent) { return (uint64_t *)(void *)lent->at; }

uint16_t *lent_u16s(const struct lent *lent) { return (uint16_t *)(void *)lent->at; }
