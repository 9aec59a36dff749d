/* A plain reader and writer of invocation responses (kind 4), by paper 01 and the requests that followed it, and of areas, the bodies of geographies, as one would write them
   in C without proofs. They are what the proved library is held against: same answers, same order of refusals. */
#pragma once
#include <stdbool.h>
#include <stddef.h>
#include <stdint.h>

/* The number and place of a refusal; number 0: none. */
typedef struct {
    uint32_t number;
    size_t place;
} plain_refusal;

enum {
    PLAIN_TINYINT = 3, PLAIN_SMALLINT = 4, PLAIN_INTEGER = 5, PLAIN_BIGINT = 6, PLAIN_FLOAT = 8, PLAIN_STRING = 9, PLAIN_TIMESTAMP = 11,
    PLAIN_DECIMAL = 22, PLAIN_VARBINARY = 25, PLAIN_POINT = 26, PLAIN_GEOGRAPHY = 27
};

/* The most columns of a table. */
enum { PLAIN_COLUMNS = 1024 };

/* Whether a message is a response. */
plain_refusal plain_accept(const uint8_t *message, size_t length);

/* A cell: its column's type and where its bytes stand. A counted one's are its body's. The null of a counted one and of a point is told apart. */
typedef struct {
    uint8_t type;
    bool null;
    size_t offset;
    size_t size;
} plain_cell;

/* Finds a cell of an accepted message; else the message's refusal, or 11 at 0 for an index past the end. */
plain_refusal plain_find_cell(const uint8_t *message, size_t length, size_t table, size_t row, size_t column, plain_cell *cell);

/* Finds the first column of a name in a table of an accepted message; else the message's refusal, 11 at 0, or 9 at 0 if none has it. */
plain_refusal plain_find_column(const uint8_t *message, size_t length, size_t table, const uint8_t *name, size_t name_size, size_t *column);

/* Opens a shortcut card; else the message's refusal, 12 where the card breaks its form, 11 at 0, or 10 at 0 if it doesn't fit. */
plain_refusal plain_open_card(const uint8_t *message, size_t length, size_t table, const uint8_t *card, size_t card_size, size_t *column);

/* How a card fits: 0, or the first of 1 past the columns, 2 another type, 3 another name; then 1 and the first column of its type and name, or 0 and 0. Refused
   as opening is, but never 10. */
plain_refusal plain_card_fit(const uint8_t *message, size_t length, size_t table, const uint8_t *card, size_t card_size, uint64_t fit[3]);

/* Writes entries of the field list, from number `first` on, as many as fit, six numbers each: offset, size, field, three
   indices. `taken` is how many were written. 11 at 0 if there is no entry `first`. */
plain_refusal plain_fields(const uint8_t *message, size_t length, size_t first, uint64_t *out, size_t room, size_t *taken);

/* How many entries the field list has. */
plain_refusal plain_field_count(const uint8_t *message, size_t length, size_t *fields);

/* The number of the entry that owns a byte. 11 at 0 if there is no such byte. */
plain_refusal plain_owner(const uint8_t *message, size_t length, size_t offset, size_t *number);

/* The writer: a response is begun, tables and rows are opened and closed, cells are put, and it is finished. */
typedef enum { PLAIN_CLOSED, PLAIN_REPLY, PLAIN_TABLE, PLAIN_ROW } plain_stage;

typedef struct {
    uint8_t *buffer;
    size_t size;
    size_t at;
    plain_stage stage;
    size_t count_at, table_at, rows_at, row_at;
    uint32_t tables, rows, cells, columns;
    uint8_t types[PLAIN_COLUMNS]; /* as many as the open table has columns: a step sets no others, and copies none */
} plain_writer;

typedef struct {
    uint8_t client[8];
    uint8_t flags, status, app_status;
    bool status_null, app_null;
    const uint8_t *status_string, *app_string, *exception;
    size_t status_size, app_size, exception_size;
    int32_t round_trip;
} plain_opening;

typedef struct {
    uint8_t type;
    size_t name, name_size; /* in the buffer of names */
} plain_column;

plain_refusal plain_begin(plain_writer *w, uint8_t *buffer, size_t size, uint8_t version, const plain_opening *fields);
plain_refusal plain_open_table(plain_writer *w, uint8_t status, const plain_column *columns, size_t count, const uint8_t *names, size_t names_size);
plain_refusal plain_open_row(plain_writer *w);
plain_refusal plain_put_number(plain_writer *w, uint8_t type, uint64_t bits);
plain_refusal plain_put_pair(plain_writer *w, uint8_t type, uint64_t first, uint64_t second);
plain_refusal plain_put_body(plain_writer *w, uint8_t type, bool null, const uint8_t *bytes, size_t size);
plain_refusal plain_close_row(plain_writer *w);
plain_refusal plain_close_table(plain_writer *w);
plain_refusal plain_finish(plain_writer *w);

/* A whole row: opened, its cells put and closed. Each cell is two of the `count` numbers: the upper and the lower 64 bits of one of a fixed size; where a
   text or binary one's bytes start in `bytes`, and how many they are, or all bits set for a null. 11 at 0 if they don't stand there. Where the row is
   refused it is taken back, but its bytes behind the position may stay. */
plain_refusal plain_whole_row(plain_writer *w, const uint64_t *cells, size_t count, const uint8_t *bytes, size_t size);

/* Whether a body is an area, and how many rings it has. */
plain_refusal plain_area(const uint8_t *body, size_t length, size_t *rings);

/* Writes entries of an area's field list, as of a response's. */
plain_refusal plain_area_fields(const uint8_t *body, size_t length, size_t first, uint64_t *out, size_t room, size_t *taken);

/* Each ring after the first in the other sense, in the body itself: its first vertex stays, the others are reversed. */
plain_refusal plain_turn_holes(uint8_t *body, size_t length, size_t *rings);

/* The writer of an area: it is begun, rings are opened and closed, vertices are put, and it is finished. */
typedef enum { PLAIN_NO_AREA, PLAIN_AREA, PLAIN_RING } plain_area_stage;

typedef struct {
    uint8_t *buffer;
    size_t size;
    size_t at;
    plain_area_stage stage;
    size_t ring_at;
    uint32_t rings, vertices;
} plain_area_writer;

plain_refusal plain_begin_area(plain_area_writer *w, uint8_t *buffer, size_t size, uint8_t edition, uint8_t internal);
plain_refusal plain_open_ring(plain_area_writer *w, uint8_t mark);
plain_refusal plain_put_vertex(plain_area_writer *w, uint64_t x, uint64_t y, uint64_t z);
plain_refusal plain_close_ring(plain_area_writer *w, const uint8_t *kept);
plain_refusal plain_finish_area(plain_area_writer *w, const uint8_t *kept);
