/* The plain reader and writer of an area. One walk checks each field in wire order and, if asked, lists it; floats may be any, so the vertices
   of a ring are passed by their count. */
#include "plain_walk.h"

/* A count of 4 bytes: does it fit, its sign, is it large enough. */
WALK count(reader *r, size_t end, uint32_t least, lister *l, unsigned field, size_t ring, size_t *is) {
    size_t at = r->at;
    if (!block(r, end, 4, l, field, ring, 0, 0)) return false;
    uint32_t n = load32(r->m + at);
    if (n > INT32_MAX) return refuse(r, BAD_SIGN, at);
    if (n < least) return refuse(r, BAD_GEOGRAPHY, at);
    *is = n;
    return true;
}

/* All floats of a ring; the first that doesn't fit is refused. */
WALK floats(reader *r, size_t end, lister *l, size_t ring, size_t vertices) {
    size_t at = r->at, fit = (end - at) / 8;
    if (fit < 3 * vertices) return refuse(r, NO_ROOM, at + 8 * fit);
    for (size_t vertex = 0; vertex < vertices; vertex++)
        for (size_t axis = 0; axis < 3; axis++) list(l, at + VERTEX * vertex + 8 * axis, 8, 66, ring, vertex, axis);
    r->at += VERTEX * vertices;
    return true;
}

WALK ring(reader *r, size_t end, lister *l, size_t i) {
    size_t vertices;
    if (!block(r, end, 1, l, 64, i, 0, 0) || !count(r, end, LEAST_VERTICES, l, 65, i, &vertices)) return false;
    return floats(r, end, l, i, vertices) && block(r, end, RING_KEPT, l, 67, i, 0, 0);
}

WALK area(reader *r, size_t end, lister *l, size_t *rings) {
    for (unsigned field = 60; field < 63; field++)
        if (!block(r, end, 1, l, field, 0, 0, 0)) return false;
    uint8_t holes = r->m[HOLES_AT];
    if (holes > 1) return refuse(r, BAD_GEOGRAPHY, HOLES_AT);
    if (!count(r, end, 1, l, 63, 0, rings)) return false;
    if (holes != (*rings > 1)) return refuse(r, BAD_GEOGRAPHY, HOLES_AT);
    for (size_t i = 0; i < *rings; i++)
        if (!ring(r, end, l, i)) return false;
    if (!block(r, end, AREA_KEPT, l, 68, 0, 0, 0)) return false;
    return r->at == end || refuse(r, LEFT_OVER, r->at);
}

plain_refusal plain_area(const uint8_t *body, size_t size, size_t *rings) {
    reader r = {body, 0, {0, 0}};
    area(&r, size, NULL, rings);
    return r.no;
}

/* As for a response, the body is checked before anything is written. */
plain_refusal plain_area_fields(const uint8_t *body, size_t size, size_t first, uint64_t *out, size_t room, size_t *taken) {
    size_t rings;
    plain_refusal no = plain_area(body, size, &rings);
    if (no.number != 0) return no;
    reader r = {body, 0, {0, 0}};
    lister l = {first, 0, 0, room, out, UINT64_MAX};
    area(&r, size, &l, &rings);
    *taken = l.taken;
    if (l.seen <= first) no.number = PAST_END;
    return no;
}

/* Vertices in the opposite order. */
static void reverse(uint8_t *first, uint8_t *last) {
    uint8_t kept[VERTEX];
    for (; first < last; first += VERTEX, last -= VERTEX) {
        memcpy(kept, first, VERTEX);
        memcpy(first, last, VERTEX);
        memcpy(last, kept, VERTEX);
    }
}

plain_refusal plain_turn_holes(uint8_t *body, size_t size, size_t *rings) {
    plain_refusal no = plain_area(body, size, rings);
    if (no.number != 0) return no;
    uint8_t *at = body + AREA_HEAD;
    for (size_t i = 0; i < *rings; i++) {
        uint8_t *first = at + RING_HEAD, *last = first + VERTEX * ((size_t)load32(at + 1) - 1);
        if (i > 0) reverse(first + VERTEX, last);
        at = last + VERTEX + RING_KEPT;
    }
    return no;
}

/* ---- The writer. */

static const plain_refusal fine = {0, 0};

static plain_refusal refused(uint32_t number, size_t place) {
    plain_refusal no = {number, place};
    return no;
}

static plain_refusal room_for(const plain_area_writer *w, size_t bytes) { return w->at + bytes > w->size ? refused(OUTPUT, w->at + bytes) : fine; }

static void put_bytes(plain_area_writer *w, const uint8_t *bytes, size_t size) {
    memcpy(w->buffer + w->at, bytes, size);
    w->at += size;
}

static void put64(plain_area_writer *w, uint64_t n) {
    store64(w->buffer + w->at, n);
    w->at += 8;
}

plain_refusal plain_begin_area(plain_area_writer *w, uint8_t *buffer, size_t size, uint8_t edition, uint8_t internal) {
    const uint8_t head[AREA_HEAD] = {edition, internal};
    plain_area_writer begun = {.buffer = buffer, .size = size, .stage = PLAIN_AREA};
    plain_refusal no = room_for(&begun, AREA_HEAD);
    if (no.number != 0) return no;
    put_bytes(&begun, head, AREA_HEAD);
    *w = begun;
    return fine;
}

plain_refusal plain_open_ring(plain_area_writer *w, uint8_t mark) {
    const uint8_t head[RING_HEAD] = {mark};
    if (w->stage != PLAIN_AREA) return refused(STAGE, w->at);
    if (w->rings >= INT32_MAX) return refused(LIMIT, w->at);
    plain_refusal no = room_for(w, RING_HEAD);
    if (no.number != 0) return no;
    w->ring_at = w->at;
    put_bytes(w, head, RING_HEAD);
    w->stage = PLAIN_RING;
    w->vertices = 0;
    w->rings++;
    return fine;
}

plain_refusal plain_put_vertex(plain_area_writer *w, uint64_t x, uint64_t y, uint64_t z) {
    if (w->stage != PLAIN_RING) return refused(STAGE, w->at);
    if (w->vertices >= INT32_MAX) return refused(LIMIT, w->at);
    plain_refusal no = room_for(w, VERTEX);
    if (no.number != 0) return no;
    put64(w, x);
    put64(w, y);
    put64(w, z);
    w->vertices++;
    return fine;
}

plain_refusal plain_close_ring(plain_area_writer *w, const uint8_t *kept) {
    if (w->stage != PLAIN_RING) return refused(STAGE, w->at);
    if (w->vertices < LEAST_VERTICES) return refused(BAD_GEOGRAPHY, w->at);
    plain_refusal no = room_for(w, RING_KEPT);
    if (no.number != 0) return no;
    put_bytes(w, kept, RING_KEPT);
    store32(w->buffer + w->ring_at + 1, w->vertices);
    w->stage = PLAIN_AREA;
    return fine;
}

plain_refusal plain_finish_area(plain_area_writer *w, const uint8_t *kept) {
    if (w->stage != PLAIN_AREA) return refused(STAGE, w->at);
    if (w->rings == 0) return refused(BAD_GEOGRAPHY, w->at);
    plain_refusal no = room_for(w, AREA_KEPT);
    if (no.number != 0) return no;
    put_bytes(w, kept, AREA_KEPT);
    w->buffer[HOLES_AT] = w->rings > 1;
    store32(w->buffer + RINGS_AT, w->rings);
    w->stage = PLAIN_NO_AREA;
    return fine;
}
