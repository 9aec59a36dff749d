/* The plain reader: one walk over the message, which checks each field in wire order and, if asked, lists it. */
#include "plain_walk.h"

/* A length of 4 bytes: does it fit, its sign, its limit, does its body fit. */
WALK length(reader *r, size_t end, uint32_t most, lister *l, unsigned field, size_t i, size_t j, size_t k, uint32_t *is) {
    size_t at = r->at;
    if (!block(r, end, 4, l, field, i, j, k)) return false;
    uint32_t n = load32(r->m + at);
    if (n > INT32_MAX) return refuse(r, BAD_SIGN, at);
    if (n > most) return refuse(r, LIMIT, at);
    if (n > end - r->at) return refuse(r, NO_ROOM, at);
    *is = n;
    return true;
}

/* A counted body. `field` is its length's number; the body's is the next. */
WALK counted(reader *r, size_t end, bool nullable, lister *l, unsigned field, size_t i, size_t j, size_t k) {
    if (nullable && end - r->at >= 4 && load32(r->m + r->at) == UINT32_MAX) return block(r, end, 4, l, field, i, j, k);
    uint32_t n;
    if (!length(r, end, MOST_BODY, l, field, i, j, k, &n)) return false;
    if (n > 0) list(l, r->at, n, field + 1, i, j, k);
    r->at += n;
    return true;
}

/* A text or null. It isn't looked at again where it is listed: what is listed was accepted. */
WALK text(reader *r, size_t end, lister *l, unsigned field, size_t i, size_t j, size_t k) {
    size_t body = r->at + 4;
    if (!counted(r, end, true, l, field, i, j, k)) return false;
    if (l != NULL) return true;
    size_t size = r->at - body, fine = well_formed(r->m + body, size);
    return fine == size || refuse(r, BAD_TEXT, body + fine);
}

WALK count(reader *r, size_t end, uint32_t most, lister *l, unsigned field, size_t i, size_t *is) {
    size_t at = r->at;
    if (!block(r, end, 2, l, field, i, 0, 0)) return false;
    uint32_t n = load16(r->m + at);
    if (n > 32767) return refuse(r, BAD_SIGN, at);
    if (n > most) return refuse(r, LIMIT, at);
    *is = n;
    return true;
}

WALK name(reader *r, size_t end, lister *l, size_t i, size_t k) {
    size_t at = r->at;
    if (!counted(r, end, false, l, 46, i, 0, k)) return false;
    size_t size = r->at - (at + 4), low = ascii_run(r->m + at + 4, size);
    return low == size || refuse(r, BAD_NAME, at + 4 + low);
}

WALK cell(reader *r, size_t end, uint8_t type, lister *l, size_t i, size_t j, size_t k) {
    size_t at = r->at;
    switch (type) {
    case PLAIN_TINYINT: return block(r, end, 1, l, 51, i, j, k);
    case PLAIN_SMALLINT: return block(r, end, 2, l, 51, i, j, k);
    case PLAIN_INTEGER: return block(r, end, 4, l, 51, i, j, k);
    case PLAIN_BIGINT: case PLAIN_FLOAT: case PLAIN_TIMESTAMP: return block(r, end, 8, l, 51, i, j, k);
    case PLAIN_DECIMAL:
        if (!block(r, end, 16, l, 51, i, j, k)) return false;
        return decimal_fine(load64(r->m + at), load64(r->m + at + 8)) || refuse(r, BAD_DECIMAL, at);
    case PLAIN_POINT:
        if (!block(r, end, 16, l, 51, i, j, k)) return false;
        return point_fine(load64(r->m + at), load64(r->m + at + 8)) || refuse(r, BAD_POINT, at);
    case PLAIN_STRING: return text(r, end, l, 50, i, j, k);
    default:
        if (!counted(r, end, true, l, 50, i, j, k)) return false;
        return type != PLAIN_GEOGRAPHY || load32(r->m + at) != 0 || refuse(r, BAD_GEOGRAPHY, at);
    }
}

WALK row(reader *r, size_t table_end, const uint8_t *types, size_t columns, lister *l, size_t i, size_t j) {
    uint32_t size;
    if (!length(r, table_end, MOST_ROW, l, 49, i, j, 0, &size)) return false;
    size_t end = r->at + size;
    for (size_t k = 0; k < columns; k++)
        if (!cell(r, end, types[k], l, i, j, k)) return false;
    return r->at == end || refuse(r, LEFT_OVER, r->at);
}

WALK metadata(reader *r, size_t table_end, lister *l, size_t i, const uint8_t **types, size_t *columns) {
    uint32_t size;
    if (!length(r, table_end, INT32_MAX, l, 42, i, 0, 0, &size)) return false;
    size_t end = r->at + size;
    if (!block(r, end, 1, l, 43, i, 0, 0)) return false;
    if (!count(r, end, PLAIN_COLUMNS, l, 44, i, columns)) return false;
    *types = r->m + r->at;
    for (size_t k = 0; k < *columns; k++) {
        if (!block(r, end, 1, l, 45, i, 0, k)) return false;
        if (!is_column_type(r->m[r->at - 1])) return refuse(r, BAD_TYPE, r->at - 1);
    }
    for (size_t k = 0; k < *columns; k++)
        if (!name(r, end, l, i, k)) return false;
    return r->at == end || refuse(r, LEFT_OVER, r->at);
}

WALK table(reader *r, size_t message_end, lister *l, size_t i) {
    uint32_t size;
    const uint8_t *types;
    size_t columns;
    if (!length(r, message_end, INT32_MAX, l, 41, i, 0, 0, &size)) return false;
    size_t end = r->at + size;
    if (!metadata(r, end, l, i, &types, &columns)) return false;
    size_t at = r->at;
    if (!block(r, end, 4, l, 48, i, 0, 0)) return false;
    uint32_t rows = load32(r->m + at);
    if (rows > INT32_MAX) return refuse(r, BAD_SIGN, at);
    for (size_t j = 0; j < rows; j++)
        if (!row(r, end, types, columns, l, i, j)) return false;
    return r->at == end || refuse(r, LEFT_OVER, r->at);
}

/* Up to the table count, which is `tables`. */
WALK head(reader *r, size_t end, lister *l, size_t *tables) {
    if (!block(r, end, 1, l, 2, 0, 0, 0)) return false;
    if (r->m[4] > 1) return refuse(r, BAD_VERSION, 4);
    if (!block(r, end, 8, l, 22, 0, 0, 0) || !block(r, end, 1, l, 30, 0, 0, 0)) return false;
    uint8_t flags = r->m[13];
    if (flags & OTHER_FLAGS) return refuse(r, BAD_FLAGS, 13);
    if (!block(r, end, 1, l, 31, 0, 0, 0)) return false;
    if (flags & FLAG_STATUS && !text(r, end, l, 32, 0, 0, 0)) return false;
    if (!block(r, end, 1, l, 34, 0, 0, 0)) return false;
    if (flags & FLAG_APPLICATION && !text(r, end, l, 35, 0, 0, 0)) return false;
    if (!block(r, end, 4, l, 37, 0, 0, 0)) return false;
    if (flags & FLAG_EXCEPTION && !counted(r, end, false, l, 38, 0, 0, 0)) return false;
    return count(r, end, MOST_ITEMS, l, 40, 0, tables);
}

WALK message_length(reader *r, size_t size, lister *l) {
    if (!block(r, size, 4, l, 1, 0, 0, 0)) return false;
    uint32_t n = load32(r->m);
    if (n == 0 || n > INT32_MAX) return refuse(r, BAD_SIGN, 0);
    if (n > MOST_MESSAGE) return refuse(r, LIMIT, 0);
    if (n > size - 4) return refuse(r, NO_ROOM, 0);
    return n == size - 4 || refuse(r, LEFT_OVER, 4 + (size_t)n);
}

WALK response(reader *r, size_t size, lister *l) {
    size_t tables;
    if (!message_length(r, size, l) || !head(r, size, l, &tables)) return false;
    for (size_t i = 0; i < tables; i++)
        if (!table(r, size, l, i)) return false;
    return r->at == size || refuse(r, LEFT_OVER, r->at);
}

plain_refusal plain_accept(const uint8_t *message, size_t size) {
    reader r = {message, 0, {0, 0}};
    response(&r, size, NULL);
    return r.no;
}

/* A list of a message that turns out to be refused is no list: so the message is checked before anything is written. */
plain_refusal plain_fields(const uint8_t *message, size_t size, size_t first, uint64_t *out, size_t room, size_t *taken) {
    plain_refusal no = plain_accept(message, size);
    if (no.number != 0) return no;
    reader r = {message, 0, {0, 0}};
    lister l = {first, 0, 0, room, out, UINT64_MAX};
    response(&r, size, &l);
    *taken = l.taken;
    if (l.seen <= first) no.number = PAST_END;
    return no;
}

/* How many fields of an accepted message begin at a byte or before it. */
static plain_refusal fields_up_to(const uint8_t *message, size_t size, size_t last, size_t *fields) {
    plain_refusal no = plain_accept(message, size);
    if (no.number != 0) return no;
    reader r = {message, 0, {0, 0}};
    lister l = {UINT64_MAX, 0, 0, 0, NULL, last};
    response(&r, size, &l);
    *fields = l.seen;
    return no;
}

plain_refusal plain_field_count(const uint8_t *message, size_t size, size_t *fields) { return fields_up_to(message, size, size, fields); }

/* Fields have no gaps between them: the last that begins there or before owns the byte. */
plain_refusal plain_owner(const uint8_t *message, size_t size, size_t offset, size_t *number) {
    plain_refusal no = fields_up_to(message, size, offset, number);
    if (no.number != 0) return no;
    --*number;
    if (offset >= size) no.number = PAST_END;
    return no;
}

/* Past a value of an accepted message. */
static size_t past_cell(const uint8_t *m, size_t at, uint8_t type) {
    size_t fixed = fixed_size(type);
    if (fixed != 0) return at + fixed;
    uint32_t n = load32(m + at);
    return at + 4 + (n == UINT32_MAX ? 0 : n);
}

static bool is_null_cell(const uint8_t *at, uint8_t type) {
    if (type == PLAIN_POINT) return is_null_point(load64(at), load64(at + 8));
    return is_counted(type) && load32(at) == UINT32_MAX;
}

static plain_refusal refused(uint32_t number, size_t place) {
    plain_refusal no = {number, place};
    return no;
}

/* Where a table of an accepted message stands, if there is one. */
static bool table_at(const uint8_t *m, size_t size, size_t table, size_t *at) {
    reader r = {m, 4, {0, 0}};
    size_t tables;
    head(&r, size, NULL, &tables);
    *at = r.at;
    for (size_t i = 0; i < table && i < tables; i++) *at += 4 + load32(m + *at);
    return table < tables;
}

plain_refusal plain_find_cell(const uint8_t *m, size_t size, size_t table, size_t row, size_t column, plain_cell *found) {
    plain_refusal no = plain_accept(m, size);
    size_t at;
    if (no.number != 0) return no;
    if (!table_at(m, size, table, &at)) return refused(PAST_END, 0);
    size_t columns = load16(m + at + 9);
    const uint8_t *types = m + at + 11;
    at += 8 + load32(m + at + 4);
    size_t rows = load32(m + at);
    if (row >= rows || column >= columns) return refused(PAST_END, 0);
    at += 4;
    for (size_t j = 0; j < row; j++) at += 4 + load32(m + at);
    at += 4;
    for (size_t k = 0; k < column; k++) at = past_cell(m, at, types[k]);
    size_t prefix = fixed_size(types[column]) == 0 ? 4 : 0;
    found->type = types[column];
    found->null = is_null_cell(m + at, types[column]);
    found->offset = at + prefix;
    found->size = past_cell(m, at, types[column]) - found->offset;
    return no;
}

/* Whether the name whose length field is at `at` is this one. */
static bool is_named(const uint8_t *at, const uint8_t *name, size_t name_size) {
    return load32(at) == name_size && memcmp(at + 4, name, name_size) == 0;
}

plain_refusal plain_find_column(const uint8_t *m, size_t size, size_t table, const uint8_t *name, size_t name_size, size_t *column) {
    plain_refusal no = plain_accept(m, size);
    size_t at;
    if (no.number != 0) return no;
    if (!table_at(m, size, table, &at)) return refused(PAST_END, 0);
    size_t columns = load16(m + at + 9);
    at += 11 + columns;
    for (size_t k = 0; k < columns; k++, at += 4 + load32(m + at))
        if (is_named(m + at, name, name_size)) {
            *column = k;
            return no;
        }
    return refused(NO_COLUMN, 0);
}

/* What a card says. */
typedef struct {
    size_t position, name_size;
    uint8_t type;
    const uint8_t *name;
} card_content;

/* Whether a card has the form of its kind, and where it breaks it. */
static bool card_fine(const uint8_t *card, size_t size, card_content *is, size_t *wrong) {
    *wrong = 0;
    if (size == 0 || (card[0] != NEAR_KIND && card[0] != FAR_KIND)) return false;
    bool far = card[0] == FAR_KIND;
    size_t whole = far ? FAR_CARD : NEAR_CARD, type_at = far ? 3 : 2, name_at = type_at + 2;
    *wrong = size < whole ? size : whole;
    if (size != whole) return false;
    *wrong = 1;
    is->position = far ? load16(card + 1) : card[1];
    if (far ? is->position < FAR_POSITION || is->position >= PLAIN_COLUMNS : is->position >= FAR_POSITION) return false;
    *wrong = type_at;
    is->type = card[type_at];
    if (!is_column_type(is->type)) return false;
    *wrong = type_at + 1;
    is->name_size = card[type_at + 1];
    if (is->name_size > CARD_NAME) return false;
    is->name = card + name_at;
    for (*wrong = name_at; *wrong < name_at + is->name_size; ++*wrong)
        if (card[*wrong] > 127) return false;
    for (; *wrong < whole; ++*wrong)
        if (card[*wrong] != 0) return false;
    return true;
}

/* What a card says, and the table that it is asked over: the message's own refusal, then the card's form, then the table. */
static plain_refusal card_over(const uint8_t *m, size_t size, size_t table, const uint8_t *card, size_t card_size, card_content *is, size_t *at) {
    plain_refusal no = plain_accept(m, size);
    size_t wrong;
    if (no.number != 0) return no;
    if (!card_fine(card, card_size, is, &wrong)) return refused(CARD_FORM, wrong);
    return table_at(m, size, table, at) ? no : refused(PAST_END, 0);
}

plain_refusal plain_open_card(const uint8_t *m, size_t size, size_t table, const uint8_t *card, size_t card_size, size_t *column) {
    size_t at;
    card_content is;
    plain_refusal no = card_over(m, size, table, card, card_size, &is, &at);
    if (no.number != 0) return no;
    size_t columns = load16(m + at + 9);
    if (is.position >= columns || m[at + 11 + is.position] != is.type) return refused(STALE, 0);
    at += 11 + columns;
    for (size_t k = 0; k < is.position; k++) at += 4 + load32(m + at);
    if (!is_named(m + at, is.name, is.name_size)) return refused(STALE, 0);
    *column = is.position;
    return no;
}

/* One walk over the columns: to the first of the card's type and name, and, if only the name is still in doubt, at least to the card's position. */
plain_refusal plain_card_fit(const uint8_t *m, size_t size, size_t table, const uint8_t *card, size_t card_size, uint64_t fit[3]) {
    size_t at;
    card_content is;
    plain_refusal no = card_over(m, size, table, card, card_size, &is, &at);
    if (no.number != 0) return no;
    size_t columns = load16(m + at + 9), first = columns;
    const uint8_t *types = m + at + 11;
    unsigned reason = is.position >= columns ? COLUMN_PAST : types[is.position] != is.type ? OTHER_TYPE : OTHER_NAME;
    size_t least = reason == OTHER_NAME ? is.position : 0;
    at += 11 + columns;
    for (size_t k = 0; k < columns && (first == columns || k <= least); k++, at += 4 + load32(m + at)) {
        if (types[k] != is.type || !is_named(m + at, is.name, is.name_size)) continue;
        if (first == columns) first = k;
        if (k == is.position) reason = FITS;
    }
    bool stands = reason != FITS && first < columns;
    fit[0] = reason, fit[1] = stands, fit[2] = stands ? first : 0;
    return no;
}
