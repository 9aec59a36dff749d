/* One walk over an area, inlined for each of two hands that write. */
#include "rewrite.h"
#include "steps.h"

typedef struct {
    uint8_t *out;
    size_t room;
    uint64_t state[CHALOENPIK_AREA_STATE];
    plain_area_writer plain;
} pen;

typedef struct {
    uint64_t (*begin)(pen *, uint8_t edition, uint8_t internal);
    uint64_t (*open_ring)(pen *, uint8_t mark);
    uint64_t (*vertex)(pen *, uint64_t x, uint64_t y, uint64_t z);
    uint64_t (*close_ring)(pen *, const uint8_t *kept);
    uint64_t (*finish)(pen *, const uint8_t *kept);
} hand;

INLINE uint64_t put_area(const hand *h, const uint8_t *body, size_t size, uint8_t *out, size_t room) {
    pen p;
    p.out = out;
    p.room = room;
    TRY(h->begin(&p, body[0], body[1]));
    size_t rings = load32(body + RINGS_AT);
    const uint8_t *at = body + AREA_HEAD;
    for (size_t i = 0; i < rings; i++) {
        size_t vertices = load32(at + 1);
        TRY(h->open_ring(&p, *at));
        at += RING_HEAD;
        for (size_t v = 0; v < vertices; v++, at += VERTEX) TRY(h->vertex(&p, load64(at), load64(at + 8), load64(at + 16)));
        TRY(h->close_ring(&p, at));
        at += RING_KEPT;
    }
    return h->finish(&p, body + size - AREA_KEPT);
}

/* ---- The plain hand. */

static uint64_t plain_hand_begin(pen *p, uint8_t edition, uint8_t internal) {
    return packed(plain_begin_area(&p->plain, p->out, p->room, edition, internal));
}

static uint64_t plain_hand_open_ring(pen *p, uint8_t mark) { return packed(plain_open_ring(&p->plain, mark)); }

static uint64_t plain_hand_vertex(pen *p, uint64_t x, uint64_t y, uint64_t z) { return packed(plain_put_vertex(&p->plain, x, y, z)); }

static uint64_t plain_hand_close_ring(pen *p, const uint8_t *kept) { return packed(plain_close_ring(&p->plain, kept)); }

static uint64_t plain_hand_finish(pen *p, const uint8_t *kept) {
    plain_refusal no = plain_finish_area(&p->plain, kept);
    return no.number != 0 ? packed(no) : (uint64_t)p->plain.at << 8;
}

static const hand plain_hand = {plain_hand_begin, plain_hand_open_ring, plain_hand_vertex, plain_hand_close_ring, plain_hand_finish};

uint64_t rewrite_area_plain(const uint8_t *body, size_t size, uint8_t *out, size_t room) { return put_area(&plain_hand, body, size, out, room); }

/* ---- The proved hand. */

#define PEN p->out, p->room, p->state

static uint64_t proved_begin(pen *p, uint8_t edition, uint8_t internal) { return chaloenpik_area_begin(PEN, edition, internal); }

static uint64_t proved_open_ring(pen *p, uint8_t mark) { return chaloenpik_area_open_ring(PEN, mark); }

static uint64_t proved_vertex(pen *p, uint64_t x, uint64_t y, uint64_t z) { return chaloenpik_area_add_vertex(PEN, x, y, z); }

static uint64_t proved_close_ring(pen *p, const uint8_t *kept) { return chaloenpik_area_close_ring(PEN, kept); }

static uint64_t proved_finish(pen *p, const uint8_t *kept) { return chaloenpik_area_finish(PEN, kept); }

static const hand proved_hand = {proved_begin, proved_open_ring, proved_vertex, proved_close_ring, proved_finish};

uint64_t rewrite_area_proved(const uint8_t *body, size_t size, uint8_t *out, size_t room) { return put_area(&proved_hand, body, size, out, room); }
