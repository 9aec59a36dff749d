/* area REPLY COLUMN [ROW]: prints the areas of a geography column of a reply's first table, each ring by the longitudes and latitudes of its
   vertices. What is no area is told with its refusal. With a row it prints that row's area alone: as it is, with its holes in the other sense,
   and without them, written anew. To be linked with -lm. */
#include "fields.h"
#include <string.h>

/* Of C's math library; the kit has no header for it. */
double atan2(double y, double x);
double sqrt(double x);

static uint8_t message[CHALOENPIK_MOST_BYTES + 1], out[CHALOENPIK_MOST_BYTES];
static size_t length;

static double float_at(const uint8_t *at) { return chaloenpik_float_value(bits_at(at, 8)); }

/* A vertex is a point on the unit sphere. */
static void print_vertex(const uint8_t *at) {
    const double degrees = 180 / 3.14159265358979323846;
    double x = float_at(at), y = float_at(at + 8), z = float_at(at + 16);
    printf("%.6f %.6f", atan2(y, x) * degrees, atan2(z, sqrt(x * x + y * y)) * degrees);
}

static void print_field(const uint8_t *body, const struct field *f) {
    switch (f->number) {
    case CHALOENPIK_FIELD_RING_MARK: printf("  ring %lu:", (unsigned long)f->i); break;
    case CHALOENPIK_FIELD_RING_KEPT: printf("\n"); break;
    case CHALOENPIK_FIELD_COORDINATE:
        if (f->k != 0) break; /* a vertex is read at its first number */
        printf(f->j == 0 ? " " : ", ");
        print_vertex(body + f->offset);
        break;
    }
}

/* One pass over the area's field list. */
static void print_area(const uint8_t *body, size_t size) {
    struct fields list = list_area(body, size);
    for (const struct field *f = list.first; f < list.end; f++) print_field(body, f);
    free(list.first);
}

/* A message accepts any body of a geography but an empty one. So it may be no area, and this says why not. */
static bool is_area(const uint8_t *body, size_t size) {
    uint64_t answer = chaloenpik_area_rings(body, size);
    unsigned refusal = chaloenpik_refusal(answer);
    if (refusal == 0) return true;
    printf("no area, refused %u at %lu: %s\n", refusal, (unsigned long)chaloenpik_value(answer), chaloenpik_area_refusal_text(refusal));
    return false;
}

static void print_body(const uint8_t *body, size_t size) {
    if (!is_area(body, size)) return;
    printf("an area\n");
    print_area(body, size);
}

static void print_column(size_t column) {
    struct fields list = list_fields(CHALOENPIK_RESPONSE, message, length);
    for (const struct field *f = list.first; f < list.end; f++) {
        if (f->i != 0 || f->k != column) continue;
        if (f->number == CHALOENPIK_FIELD_CELL_LENGTH) printf("row %lu: ", (unsigned long)f->j);
        if (f->number == CHALOENPIK_FIELD_CELL_LENGTH && bits_at(message + f->offset, f->size) == UINT32_MAX) printf("null\n");
        if (f->number == CHALOENPIK_FIELD_CELL) print_body(message + f->offset, f->size);
    }
    free(list.first);
}

/* A new area of the first ring alone, whose vertices stand one behind the other. What the server fills in later is 0, and the internal byte 1. */
static size_t write_outline(const uint8_t *body, size_t size) {
    static const uint8_t kept[CHALOENPIK_RING_KEPT] = {0};
    uint64_t state[CHALOENPIK_AREA_STATE], ring[3];
    found("ring", chaloenpik_area_ring(body, size, 0, ring));
    found("step", chaloenpik_area_begin(out, sizeof out, state, 0, 1));
    found("step", chaloenpik_area_open_ring(out, sizeof out, state, 0));
    const uint8_t *at = body + ring[0] + 5;
    for (size_t v = 0; v < ring[2]; v++, at += 24)
        found("step", chaloenpik_area_add_vertex(out, sizeof out, state, bits_at(at, 8), bits_at(at + 8, 8), bits_at(at + 16, 8)));
    found("step", chaloenpik_area_close_ring(out, sizeof out, state, kept));
    return found("step", chaloenpik_area_finish(out, sizeof out, state, kept));
}

static int print_three_ways(size_t row, size_t column) {
    uint64_t cell[4];
    found("row", chaloenpik_cell(message, length, 0, row, column, cell));
    if (cell[1] != CHALOENPIK_BYTES) {
        printf("row %lu is null\n", (unsigned long)row);
        return 1;
    }
    uint8_t *body = message + cell[2];
    size_t size = cell[3];
    if (!is_area(body, size)) return 1;
    printf("as it is\n");
    print_area(body, size);
    found("area", chaloenpik_area_turn_holes(body, size));
    printf("with its holes in the other sense\n");
    print_area(body, size);
    printf("without its holes\n");
    print_area(out, write_outline(body, size));
    return 0;
}

int main(int count, char **words) {
    long row = 0;
    if (count < 3 || count > 4 || (count == 4 && !read_number(words[3], 0, INT64_MAX, &row))) {
        fprintf(stderr, "usage: area REPLY COLUMN [ROW]\n");
        return 2;
    }
    length = read_file(words[1], message, sizeof message);
    size_t column = found(words[2], chaloenpik_find_column(message, length, 0, (const uint8_t *)words[2], strlen(words[2])));
    if (found(words[2], chaloenpik_column_type(message, length, 0, column)) != CHALOENPIK_GEOGRAPHY) {
        printf("%s is no column of geographies\n", words[2]);
        return 1;
    }
    if (count == 4) return print_three_ways((size_t)row, column);
    print_column(column);
    return 0;
}
