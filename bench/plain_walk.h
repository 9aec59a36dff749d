/* What the plain readers of a response and of an area share: where a walk is, what it refused, and the list that it may write. */
#pragma once
#include "plain_rules.h"

typedef struct {
    const uint8_t *m;
    size_t at;
    plain_refusal no;
} reader;

/* What is to be listed: entries from `first` on, as long as `out` has room. A field that begins behind the byte `last` isn't seen. */
typedef struct {
    size_t first, seen, taken, room;
    uint64_t *out;
    size_t last;
} lister;

/* Inlined, so that the walk that lists nothing has no trace of the lister. */
#define INLINE static inline __attribute__((always_inline))
#define WALK INLINE bool

static bool refuse(reader *r, uint32_t number, size_t place) {
    r->no.number = number;
    r->no.place = place;
    return false;
}

INLINE void list(lister *l, size_t offset, size_t size, unsigned field, size_t i, size_t j, size_t k) {
    if (l == NULL || offset > l->last || l->seen++ < l->first || l->room - l->taken * 6 < 6) return;
    uint64_t *entry = l->out + l->taken++ * 6;
    entry[0] = offset, entry[1] = size, entry[2] = field;
    entry[3] = i, entry[4] = j, entry[5] = k;
}

/* A field of fixed size. `end` is where its room ends. */
WALK block(reader *r, size_t end, size_t size, lister *l, unsigned field, size_t i, size_t j, size_t k) {
    if (end - r->at < size) return refuse(r, NO_ROOM, r->at);
    list(l, r->at, size, field, i, j, k);
    r->at += size;
    return true;
}
