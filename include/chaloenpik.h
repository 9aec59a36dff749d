/* Chaloenpik: reads and writes the VoltDB client wire protocol, and says which bytes of a message say what. For C99 and C++11 or later.

   The functions are those of the proved crates `exports` (reading), `writeexports` (writing) and `areaexports` (areas); `make` writes them to
   target/libchaloenpik.a, for x86-64 Linux.
   They ask nothing of their arguments but that each pointer has so many readable (or, where not const, writable) elements,
   and that memory lent for writing overlaps nothing else lent to the same call. They keep nothing and allocate nothing.

   Each answers one number, taken apart by the first two functions below: 0 in its low 8 bits if the call was carried out, and
   then what it found above them; else the number of a refusal, and its place above it. A refusal changes no lent memory.

   Each call that is given a message walks over the whole of it once, to accept it, and those for the field list once more. So to go over
   a table, or a message, don't ask cell by cell: take the field list, by one `chaloenpik_field_count` and one `chaloenpik_fields`. Each
   entry says where a field stands, and all the rest is read there, at no further cost (examples/c/table.c). */
#ifndef CHALOENPIK_H
#define CHALOENPIK_H

#include <stdbool.h>
#include <stddef.h>
#include <stdint.h>
#include <string.h>

#define CHALOENPIK_VERSION_MAJOR 0
#define CHALOENPIK_VERSION_MINOR 5
#define CHALOENPIK_VERSION_PATCH 0
#define CHALOENPIK_VERSION "0.5.0"

#ifdef __cplusplus
extern "C" {
#endif

/* The refusal's number; 0: none. */
static inline unsigned chaloenpik_refusal(uint64_t answer) { return (unsigned)(answer & 255); }

/* The refusal's place, or what was found. */
static inline uint64_t chaloenpik_value(uint64_t answer) { return answer >> 8; }

/* ---- Names for numbers. chaloenpik_words.h says them in words. docs/NUMBERS.md has all refusals and fields in two tables: when each refusal is
   given, where, and by which calls; of each field its size and its indices. */

/* Refusals, and their places in what is read. Writing refuses at the position before the step, which is 0 for a login and a begin; 8 and 11 have
   the same places as in reading. Up to version 0.1.0 the causes from CHALOENPIK_BAD_DECIMAL to CHALOENPIK_BAD_GEOGRAPHY shared the number 7,
   which is no longer given. */
enum {
    CHALOENPIK_NO_ROOM = 1,       /* a field, or a counted body, doesn't fit its room: the field; for a body, its length field */
    CHALOENPIK_NEGATIVE = 2,      /* a length or count is negative and not a permitted -1, or the message length is 0: that field */
    CHALOENPIK_LIMIT = 3,         /* a limit is passed: that length or count */
    CHALOENPIK_LEFT_OVER = 4,     /* bytes are left in a room after its last field: the first such byte */
    CHALOENPIK_BAD_VERSION = 5,   /* the version or the hash version is not 0 or 1: that byte */
    CHALOENPIK_BAD_TYPE = 6,      /* the wire type is unknown or not permitted there: that byte; or no such kind: 0 */
    CHALOENPIK_OUTPUT_SHORT = 8,  /* the output is too short: bytes needed, which in writing is the position that the step would reach */
    CHALOENPIK_NO_COLUMN = 9,     /* no column has that name: 0 */
    CHALOENPIK_CARD_STALE = 10,   /* a well-formed card doesn't fit the table: 0; chaloenpik_card_fit says why */
    CHALOENPIK_PAST_END = 11,     /* a table, row, column, ring, vertex, entry or byte past the end, or a column's name, or a cell of a whole row,
                                     past its buffer: 0 */
    CHALOENPIK_CARD_BROKEN = 12,  /* a card breaks its form: the first wrong byte; for a wrong size, the smaller of the sizes */
    CHALOENPIK_BAD_STAGE = 13,    /* a step of writing comes at a stage, or with a state, that doesn't permit it: the position */
    CHALOENPIK_BAD_TEXT = 20,     /* a text isn't well-formed UTF-8: the first byte that begins no well-formed sequence */
    CHALOENPIK_BAD_DECIMAL = 21,  /* a decimal is out of its range and isn't null: its first byte */
    CHALOENPIK_BAD_POINT = 22,    /* a point is neither a position nor null: its first byte */
    CHALOENPIK_BAD_FLAGS = 23,    /* the flag byte has a bit set other than 32, 64 and 128: that byte */
    CHALOENPIK_BAD_NAME = 24,     /* a column's name has a byte above 127: the first such byte */
    CHALOENPIK_BAD_GEOGRAPHY = 25 /* a geography is empty: its length field. In an area, the third byte isn't 0 or 1 or doesn't fit the ring
                                     count, or there are too few rings or vertices: that byte or count */
};

/* Text is well-formed UTF-8 by RFC 3629, without surrogates and overlong forms: service, user, procedure, build, the status string, the
   application string and every string value. It ends where its length says, not at a zero, and not inside a character. Varbinaries, arrays of
   tinyints, exceptions, geographies and names that are searched for are any bytes; the names of columns are bytes from 0 to 127. */

/* Kinds of messages. */
enum { CHALOENPIK_LOGIN_REQUEST = 1, CHALOENPIK_LOGIN_RESPONSE = 2, CHALOENPIK_INVOCATION = 3, CHALOENPIK_RESPONSE = 4 };

/* Wire types. */
enum {
    CHALOENPIK_NULL = 1, CHALOENPIK_TINYINT = 3, CHALOENPIK_SMALLINT = 4, CHALOENPIK_INTEGER = 5, CHALOENPIK_BIGINT = 6,
    CHALOENPIK_FLOAT = 8, CHALOENPIK_STRING = 9, CHALOENPIK_TIMESTAMP = 11, CHALOENPIK_DECIMAL = 22, CHALOENPIK_VARBINARY = 25,
    CHALOENPIK_POINT = 26, CHALOENPIK_GEOGRAPHY = 27, CHALOENPIK_ARRAY = 157 /* -99 */
};

/* Fields of a message. A counted thing has a field for its length and, if that is longer than 0, one for its body. */
enum {
    CHALOENPIK_FIELD_MESSAGE_LENGTH = 1, CHALOENPIK_FIELD_VERSION = 2,
    /* of a login request */
    CHALOENPIK_FIELD_HASH_VERSION = 3, CHALOENPIK_FIELD_SERVICE_LENGTH = 4, CHALOENPIK_FIELD_SERVICE = 5,
    CHALOENPIK_FIELD_USER_LENGTH = 6, CHALOENPIK_FIELD_USER = 7, CHALOENPIK_FIELD_HASH = 8,
    /* of a login response */
    CHALOENPIK_FIELD_RESULT = 10, CHALOENPIK_FIELD_HOST = 11, CHALOENPIK_FIELD_CONNECTION = 12, CHALOENPIK_FIELD_START = 13,
    CHALOENPIK_FIELD_LEADER = 14, CHALOENPIK_FIELD_BUILD_LENGTH = 15, CHALOENPIK_FIELD_BUILD = 16,
    /* of an invocation; the client data of a response too. Indices from the wire type to the value: parameter, element, 0 */
    CHALOENPIK_FIELD_PROCEDURE_LENGTH = 20, CHALOENPIK_FIELD_PROCEDURE = 21, CHALOENPIK_FIELD_CLIENT_DATA = 22,
    CHALOENPIK_FIELD_PARAMETER_COUNT = 23, CHALOENPIK_FIELD_WIRE_TYPE = 24, CHALOENPIK_FIELD_ELEMENT_TYPE = 25,
    CHALOENPIK_FIELD_ELEMENT_COUNT = 26, CHALOENPIK_FIELD_VALUE_LENGTH = 27, CHALOENPIK_FIELD_VALUE = 28,
    /* of a response */
    CHALOENPIK_FIELD_FLAGS = 30, CHALOENPIK_FIELD_STATUS = 31, CHALOENPIK_FIELD_STATUS_STRING_LENGTH = 32,
    CHALOENPIK_FIELD_STATUS_STRING = 33, CHALOENPIK_FIELD_APPLICATION_STATUS = 34, CHALOENPIK_FIELD_APPLICATION_STRING_LENGTH = 35,
    CHALOENPIK_FIELD_APPLICATION_STRING = 36, CHALOENPIK_FIELD_ROUND_TRIP = 37, CHALOENPIK_FIELD_EXCEPTION_LENGTH = 38,
    CHALOENPIK_FIELD_EXCEPTION = 39, CHALOENPIK_FIELD_TABLE_COUNT = 40,
    /* of its tables. Indices: table, row, column, 0 where there is none */
    CHALOENPIK_FIELD_TABLE_LENGTH = 41, CHALOENPIK_FIELD_METADATA_LENGTH = 42, CHALOENPIK_FIELD_TABLE_STATUS = 43,
    CHALOENPIK_FIELD_COLUMN_COUNT = 44, CHALOENPIK_FIELD_COLUMN_TYPE = 45, CHALOENPIK_FIELD_COLUMN_NAME_LENGTH = 46,
    CHALOENPIK_FIELD_COLUMN_NAME = 47, CHALOENPIK_FIELD_ROW_COUNT = 48, CHALOENPIK_FIELD_ROW_LENGTH = 49,
    CHALOENPIK_FIELD_CELL_LENGTH = 50, CHALOENPIK_FIELD_CELL = 51,
    /* of an area, which has a list of its own. Indices: ring, vertex, axis, 0 where there is none */
    CHALOENPIK_FIELD_AREA_EDITION = 60, CHALOENPIK_FIELD_AREA_INTERNAL = 61, CHALOENPIK_FIELD_AREA_HOLES = 62,
    CHALOENPIK_FIELD_RING_COUNT = 63, CHALOENPIK_FIELD_RING_MARK = 64, CHALOENPIK_FIELD_VERTEX_COUNT = 65,
    CHALOENPIK_FIELD_COORDINATE = 66, CHALOENPIK_FIELD_RING_KEPT = 67, CHALOENPIK_FIELD_AREA_KEPT = 68
};

/* Sizes. */
enum {
    CHALOENPIK_MOST_BYTES = 4194308, /* of a message; no longer one is accepted */
    CHALOENPIK_ENTRY = 6,            /* numbers of an entry of the field list */
    CHALOENPIK_NEAR_CARD = 36,       /* bytes of the shortcut card of a column at a position below CHALOENPIK_FAR_POSITION */
    CHALOENPIK_FAR_CARD = 37,        /* bytes of one at that position or above: the most that a card has */
    CHALOENPIK_FAR_POSITION = 64,    /* the first position that a far card holds */
    CHALOENPIK_STATE = 11,           /* numbers of a writer's state */
    CHALOENPIK_TYPES = 1024,         /* bytes for the types of an open table's columns: the most columns that a table has */
    CHALOENPIK_RING_KEPT = 38,       /* bytes that are kept behind the vertices of a ring */
    CHALOENPIK_AREA_KEPT = 33,       /* bytes that are kept behind the rings of an area */
    CHALOENPIK_AREA_STATE = 5        /* numbers of the state of writing an area */
};

/* ---- Any message. */

/* Whether a message of a kind is accepted; if so the value is 0. */
uint64_t chaloenpik_accept(uint8_t kind, const uint8_t *message, size_t length);

/* How many fields a message of a kind has. */
uint64_t chaloenpik_field_count(uint8_t kind, const uint8_t *message, size_t length);

/* Writes entries of the field list into `out`, which has room for `size` numbers: those from number `first` on, from 0, as
   many whole ones as fit. An entry is CHALOENPIK_ENTRY numbers: offset, size, field number, three indices. The value is how many entries
   were written; what stands behind them in `out` is left as it was. 11 at 0: the list has no entry `first`. Fields are listed in the order
   of their bytes, without a gap. Each call walks over the whole message again, so take few large windows, or one. */
uint64_t chaloenpik_fields(uint8_t kind, const uint8_t *message, size_t length, size_t first, uint64_t *out, size_t size);

/* The number, in the field list, of the field that owns a byte. 11 at 0: the message has no such byte. */
uint64_t chaloenpik_owner(uint8_t kind, const uint8_t *message, size_t length, size_t offset);

/* ---- Records: what a message of a kind says, as numbers. If it is accepted the value is 0. A signed number has the 64 bits of
   its two's complement; a part of the message is two numbers, its start and its size. */

/* Version; 1 if there is a hash version, and it, else 0; service; user; hash. */
uint64_t chaloenpik_login_request(const uint8_t *message, size_t length, uint64_t record[9]);

/* Version, result, host, connection, start, the leader's 4 bytes as a number; 1 if there is a build string, and it. With a
   result other than 0 all that follows it is 0. */
uint64_t chaloenpik_login_response(const uint8_t *message, size_t length, uint64_t record[9]);

/* Version; procedure; the 8 bytes of client data as a number; how many parameters; where the first begins. */
uint64_t chaloenpik_invocation(const uint8_t *message, size_t length, uint64_t record[6]);

/* Version, client data, flags, status, status string, application status, application string, round trip, exception; how many
   tables; where the first begins. A string and an exception are three numbers: 0 absent, 1 null, 2 there, and then the part. */
uint64_t chaloenpik_response(const uint8_t *message, size_t length, uint64_t record[17]);

/* ---- Cells and parameters. Each is four numbers: its wire type, its form, and two that the form decides. */

enum {
    CHALOENPIK_FIXED = 0, /* of a fixed size: its upper and its lower 64 bits, which the functions below take apart */
    CHALOENPIK_BYTES = 1, /* text, which is UTF-8, or binary: where its bytes start in the message, and how many they are */
    CHALOENPIK_NONE = 2,  /* null, of a point too: 0 and 0. A null decimal is shown by its bits, -2^127 */
    CHALOENPIK_MANY = 3   /* an array: its elements' wire type, and how many they are */
};

/* Numbers are shown and written by their bits, without a sign. So that nobody has to cast: a number to its bits, and back. */

/* The lower 64 bits of a tinyint, smallint, integer, bigint or timestamp. A number that the type doesn't hold gives bits that the steps
   of writing refuse 6: none is cut. */
static inline uint64_t chaloenpik_signed_bits(uint8_t type, int64_t n) {
    bool fits = true;
    uint64_t mask = UINT64_MAX;
    switch (type) {
    case CHALOENPIK_TINYINT: fits = n == (int8_t)n, mask = UINT8_MAX; break;
    case CHALOENPIK_SMALLINT: fits = n == (int16_t)n, mask = UINT16_MAX; break;
    case CHALOENPIK_INTEGER: fits = n == (int32_t)n, mask = UINT32_MAX; break;
    default: break;
    }
    return fits ? (uint64_t)n & mask : UINT64_MAX;
}

/* The number of such a value, by its type and its lower 64 bits. */
static inline int64_t chaloenpik_signed_value(uint8_t type, uint64_t lower) {
    switch (type) {
    case CHALOENPIK_TINYINT: return (int8_t)lower;
    case CHALOENPIK_SMALLINT: return (int16_t)lower;
    case CHALOENPIK_INTEGER: return (int32_t)lower;
    default: return (int64_t)lower;
    }
}

/* The upper 64 bits of a decimal whose units of 10^-12 fit 64 bits; these are its lower ones. */
static inline uint64_t chaloenpik_upper_bits(int64_t units) { return units < 0 ? UINT64_MAX : 0; }

/* The bits of a float: the lower 64 of a FLOAT; of a point the upper are its longitude's, and the lower its latitude's. */
static inline uint64_t chaloenpik_float_bits(double x) {
    uint64_t bits;
    memcpy(&bits, &x, sizeof bits);
    return bits;
}

static inline double chaloenpik_float_value(uint64_t bits) {
    double x;
    memcpy(&x, &bits, sizeof x);
    return x;
}

/* The bits of 360.0. A point is a position, from -180 to 180 and from -90 to 90 degrees, or it is null: then its upper and its lower 64
   bits are both these. By them a null is written, as any value of a fixed size, and told apart at its entry of the field list, which has
   16 bytes as a position's has. Any other point is refused 22. */
#define CHALOENPIK_DEGREES_360 0x4076800000000000U

/* A parameter of an invocation (kind 3), counted from 0; 11 at 0: there is no such one. */
uint64_t chaloenpik_parameter(const uint8_t *message, size_t length, size_t parameter, uint64_t cell[4]);

/* An element of an array among the parameters. 6 at the parameter's type: it is no array. */
uint64_t chaloenpik_element(const uint8_t *message, size_t length, size_t parameter, size_t element, uint64_t cell[4]);

/* The functions below ask a response (kind 4). Tables, rows and columns are counted from 0; 11 at 0: there is no such one. */

/* How many tables it has. */
uint64_t chaloenpik_tables(const uint8_t *message, size_t length);

/* How many rows a table has. */
uint64_t chaloenpik_rows(const uint8_t *message, size_t length, size_t table);

/* How many columns a table has. */
uint64_t chaloenpik_columns(const uint8_t *message, size_t length, size_t table);

/* The wire type of a column. */
uint64_t chaloenpik_column_type(const uint8_t *message, size_t length, size_t table, size_t column);

/* Where the bytes of a column's name stand in the message: their start and how many they are. */
uint64_t chaloenpik_column_name(const uint8_t *message, size_t length, size_t table, size_t column, uint64_t part[2]);

/* The position of the first column whose name is equal, byte for byte; any bytes may be asked for. 9 at 0: no column has that name. */
uint64_t chaloenpik_find_column(const uint8_t *message, size_t length, size_t table, const uint8_t *name, size_t name_length);

/* A cell of a table. */
uint64_t chaloenpik_cell(const uint8_t *message, size_t length, size_t table, size_t row, size_t column, uint64_t cell[4]);

/* Where the bytes of a cell of any type stand in the message, a null too: the start and size of what the field list has for it, which of
   a text or binary cell is its length and its body. */
uint64_t chaloenpik_cell_place(const uint8_t *message, size_t length, size_t table, size_t row, size_t column, uint64_t part[2]);

/* ---- Shortcut cards: a column kept by its position, type and name, to be found again without a search. There are two kinds, near and far, by
   the column's position, so that each column has one card. A near card is what a card was up to version 0.2.0: one that was kept then opens
   the same column as it did. A name of more than 32 bytes has no card. */

/* How many bytes the card of a column at a position has: CHALOENPIK_NEAR_CARD or CHALOENPIK_FAR_CARD. */
static inline size_t chaloenpik_card_size(uint64_t position) {
    return position < CHALOENPIK_FAR_POSITION ? CHALOENPIK_NEAR_CARD : CHALOENPIK_FAR_CARD;
}

/* Writes the card of the first column of a name in front of `out`; the value is the column's position. An `out` of CHALOENPIK_FAR_CARD bytes
   takes any card; the first chaloenpik_card_size(position) of them are the card, and those behind it stay as they were. 8 at the card's size:
   no room. 3 at the name's length in the message: the name is too long for a card. */
uint64_t chaloenpik_make_card(const uint8_t *message, size_t length, size_t table, const uint8_t *name, size_t name_length, uint8_t *out, size_t size);

/* The position of the column that a card stands for. `card_length` is the card's own size, and not that of a buffer it was made in. 10 at 0: the
   table has another column there, or none, of which chaloenpik_card_fit says more; 12: no card. */
uint64_t chaloenpik_open_card(const uint8_t *message, size_t length, size_t table, const uint8_t *card, size_t card_length);

/* How a card fits a table: it does, or else the first reason of these that holds. */
enum {
    CHALOENPIK_FITS = 0,        /* chaloenpik_open_card opens it */
    CHALOENPIK_COLUMN_PAST = 1, /* its position is past the last column */
    CHALOENPIK_OTHER_TYPE = 2,  /* the column at its position has another type, whatever its name is */
    CHALOENPIK_OTHER_NAME = 3   /* the column at its position has another name, and the card's type */
};

/* Why a card is refused 10, and where its column stands now, in three numbers: one of those above; 1 if the table has a column of the card's name
   and type, and the first position of such a one. These two are 0 if there is none, and of a card that fits. The value is 0. It is refused as
   chaloenpik_open_card is, but never 10. It opens nothing: who wants the column at its new place makes a new card. */
uint64_t chaloenpik_card_fit(const uint8_t *message, size_t length, size_t table, const uint8_t *card, size_t card_length, uint64_t fit[3]);

/* ---- Writing. `out` has room for `size` bytes; the value is the position that was reached, which after the last step is the
   message's size. A step that is refused leaves the buffer, the state and the types as they were; 8 at the position that it
   would reach: no room; 20 at the position before it, 0 for a login and a begin: a text isn't well-formed UTF-8, perhaps because it was
   cut inside a character (examples/c/name.c). Numbers are given by their bits, without a sign. */

/* A login request. The hash has 20 bytes, or 32 with hash version 1. In version 0 the hash version is ignored. */
uint64_t chaloenpik_write_login_request(uint8_t *out, size_t size, uint8_t version, uint8_t hash_version, const uint8_t *service, size_t service_length,
                                        const uint8_t *user, size_t user_length, const uint8_t *hash, size_t hash_length);

/* A login response. With a result other than 0 all that follows it is ignored. */
uint64_t chaloenpik_write_login_response(uint8_t *out, size_t size, uint8_t version, uint8_t result, uint32_t host, uint64_t connection, uint64_t start,
                                         uint32_t leader, const uint8_t *build, size_t build_length);

/* The other kinds are written by steps, which keep where they are in numbers that the caller lends: the stage, the position, and
   what is open. Beginning a message sets them. Any numbers may stand in them: a step that they don't permit is refused 13, at
   the low 56 bits of the position. A step costs by what it writes and, inside a table, by how many columns that has;
   not by what was written before.

   The types of an open table's columns stand beside the state, in CHALOENPIK_TYPES bytes that the caller lends. Opening a table of n columns sets
   the first n of them, and each step inside it looks at those. The others are neither read nor cleared, and none is copied: so they need no value
   before a table is opened, and a table of two columns doesn't cost what one of CHALOENPIK_TYPES does. */

/* Begins an invocation; `client` has 8 bytes. */
uint64_t chaloenpik_begin_call(uint8_t *out, size_t size, uint64_t state[CHALOENPIK_STATE], uint8_t version,
                               const uint8_t *procedure, size_t procedure_length, const uint8_t client[8]);

/* A null parameter. */
uint64_t chaloenpik_null_param(uint8_t *out, size_t size, uint64_t state[CHALOENPIK_STATE]);

/* A parameter of a fixed size, by its upper and lower 64 bits; one of at most 8 bytes stands in the lower, and a null point is
   CHALOENPIK_DEGREES_360 in both. 6: the type has no fixed size, or not so many bits; 21: no such decimal; 22: no such point. */
uint64_t chaloenpik_fixed_param(uint8_t *out, size_t size, uint64_t state[CHALOENPIK_STATE], uint8_t type,
                                uint64_t upper, uint64_t lower);

/* A text or binary parameter, or a null of its type. 6: the type is none of theirs; 25: an empty geography. */
uint64_t chaloenpik_body_param(uint8_t *out, size_t size, uint64_t state[CHALOENPIK_STATE], uint8_t type,
                               bool null, const uint8_t *bytes, size_t length);

/* An array of tinyints, in one step. */
uint64_t chaloenpik_bytes_param(uint8_t *out, size_t size, uint64_t state[CHALOENPIK_STATE],
                                const uint8_t *bytes, size_t length);

/* Opens an array of elements of a type. */
uint64_t chaloenpik_open_array(uint8_t *out, size_t size, uint64_t state[CHALOENPIK_STATE], uint8_t type);

/* An element of the open array, of a fixed size. 6: as above, or another type than the array's. */
uint64_t chaloenpik_fixed_element(uint8_t *out, size_t size, uint64_t state[CHALOENPIK_STATE], uint8_t type,
                                  uint64_t upper, uint64_t lower);

/* A text or binary element of the open array. */
uint64_t chaloenpik_body_element(uint8_t *out, size_t size, uint64_t state[CHALOENPIK_STATE], uint8_t type,
                                 bool null, const uint8_t *bytes, size_t length);

/* Closes the array. */
uint64_t chaloenpik_close_array(uint8_t *out, size_t size, uint64_t state[CHALOENPIK_STATE]);

/* Finishes the invocation. */
uint64_t chaloenpik_finish_call(uint8_t *out, size_t size, uint64_t state[CHALOENPIK_STATE]);

/* Begins a response with all fields before its table count; `client` has 8 bytes. A string, or an exception, whose flag isn't
   set is ignored. 23: a flag that there isn't. */
uint64_t chaloenpik_begin_reply(uint8_t *out, size_t size, uint64_t state[CHALOENPIK_STATE], uint8_t version,
                                const uint8_t client[8], uint8_t flags, uint8_t status, bool status_null, const uint8_t *status_string,
                                size_t status_length, uint8_t app_status, bool app_null, const uint8_t *app_string, size_t app_length,
                                uint32_t round_trip, const uint8_t *exception, size_t exception_length);

/* Opens a table. `columns` has `numbers` numbers, three for each column: its wire type, and its name's start and size in `names`;
   one or two left over are ignored. 11 at 0: a name that is no part of `names`; 24: one with a byte above 127. */
uint64_t chaloenpik_open_table(uint8_t *out, size_t size, uint64_t state[CHALOENPIK_STATE], uint8_t types[CHALOENPIK_TYPES], uint8_t status,
                               const uint64_t *columns, size_t numbers, const uint8_t *names, size_t names_length);

/* Opens a row. */
uint64_t chaloenpik_open_row(uint8_t *out, size_t size, uint64_t state[CHALOENPIK_STATE], const uint8_t types[CHALOENPIK_TYPES]);

/* A cell of the open row, of a fixed size, by its upper and lower 64 bits. 6: as above, or another type than the column's. */
uint64_t chaloenpik_fixed_cell(uint8_t *out, size_t size, uint64_t state[CHALOENPIK_STATE], const uint8_t types[CHALOENPIK_TYPES], uint8_t type,
                               uint64_t upper, uint64_t lower);

/* A text or binary cell of the open row, or a null of its type. */
uint64_t chaloenpik_body_cell(uint8_t *out, size_t size, uint64_t state[CHALOENPIK_STATE], const uint8_t types[CHALOENPIK_TYPES], uint8_t type,
                              bool null, const uint8_t *bytes, size_t length);

/* Closes the row. */
uint64_t chaloenpik_close_row(uint8_t *out, size_t size, uint64_t state[CHALOENPIK_STATE], const uint8_t types[CHALOENPIK_TYPES]);

/* The size of a null in a whole row: all bits are set, as in its length of -1 in the message. */
#define CHALOENPIK_NULL_SIZE UINT64_MAX

/* A whole row in one step. It is the run of the steps above: opening the row, each of its cells, closing it. The first that would be refused
   decides the refusal, at its own position; and then nothing is changed, by those before it neither. `cells` has `numbers` numbers, two for each
   cell; one left over is ignored. A cell has its column's type: of a fixed size, by its upper and lower 64 bits; text or binary, by its start and
   size in `bytes`, or for a null by any start and CHALOENPIK_NULL_SIZE. 11 at 0, when that cell's turn comes: it is no part of `bytes`; 13: a cell
   too many, or too few. */
uint64_t chaloenpik_whole_row(uint8_t *out, size_t size, uint64_t state[CHALOENPIK_STATE], const uint8_t types[CHALOENPIK_TYPES],
                              const uint64_t *cells, size_t numbers, const uint8_t *bytes, size_t length);

/* Closes the table. */
uint64_t chaloenpik_close_table(uint8_t *out, size_t size, uint64_t state[CHALOENPIK_STATE], const uint8_t types[CHALOENPIK_TYPES]);

/* Finishes the response. */
uint64_t chaloenpik_finish_reply(uint8_t *out, size_t size, uint64_t state[CHALOENPIK_STATE]);

/* ---- Areas: the body of a geography, as the protocol lays it out. A message keeps that body as it is, whatever it says; these functions take
   it by itself, as bytes of any number, and count all places from its first byte. `chaloenpik_cell`, `chaloenpik_parameter` and
   `chaloenpik_element` tell where the body of a geography stands in a message.

   An area has three bytes in front: an edition and an internal byte, which may be any, and 1 if it has holes, else 0. Then come its rings,
   one or more, the first around it and each other one around a hole, and CHALOENPIK_AREA_KEPT bytes. A ring has a mark, which may be any byte,
   three or more vertices, and CHALOENPIK_RING_KEPT bytes. A vertex is a point on the unit sphere, x, y and z: any floats, by their bits. The
   server fills in the edition, the internal byte, the marks and the kept bytes: who reads an area keeps them as they came; in a new one they
   are all 0 but the internal byte, which is 1.

   Rings and vertices are counted from 0; 11 at 0, after the body's own refusal: there is no such one. Each call walks over the body, ring by
   ring. So to go over all vertices don't ask for each: take the field list, or read on from a ring's place (examples/c/area.c). */

/* Whether a body is an area; if so the value is how many rings it has. */
uint64_t chaloenpik_area_rings(const uint8_t *body, size_t length);

/* A ring: where it begins, its mark, and how many vertices it has. The first one's x stands 5 bytes behind that place, and each number has 8
   bytes, the highest first. */
uint64_t chaloenpik_area_ring(const uint8_t *body, size_t length, size_t ring, uint64_t told[3]);

/* A vertex: the bits of its x, y and z. */
uint64_t chaloenpik_area_vertex(const uint8_t *body, size_t length, size_t ring, size_t vertex, uint64_t axes[3]);

/* Where the bytes that are kept of a ring stand: their start, and CHALOENPIK_RING_KEPT. */
uint64_t chaloenpik_area_ring_kept(const uint8_t *body, size_t length, size_t ring, uint64_t part[2]);

/* Where the bytes that are kept of the area stand: their start, and CHALOENPIK_AREA_KEPT. */
uint64_t chaloenpik_area_kept(const uint8_t *body, size_t length, uint64_t part[2]);

/* The field list of an area, by the same three functions as that of a message: how many fields it has; entries from number `first` on; the
   number of the field that owns a byte. */
uint64_t chaloenpik_area_field_count(const uint8_t *body, size_t length);
uint64_t chaloenpik_area_fields(const uint8_t *body, size_t length, size_t first, uint64_t *out, size_t size);
uint64_t chaloenpik_area_owner(const uint8_t *body, size_t length, size_t offset);

/* Gives each ring after the first the other sense, in the lent body itself: its first vertex stays, and those behind it come in the opposite
   order. Every other byte stays, and doing it twice restores the body. The value is how many rings there are. */
uint64_t chaloenpik_area_turn_holes(uint8_t *body, size_t length);

/* An area is written by steps, as a message is, and they refuse alike: 13, 8, and 3 at the position for a count above 2^31 - 1. The state is the
   stage (0 nothing is open, 1 an area, 2 a ring of it), the position, how many rings there are, where the open ring begins, and how many
   vertices that has. */

/* Begins an area with its edition and its internal byte. Whether it has holes follows from its rings. */
uint64_t chaloenpik_area_begin(uint8_t *out, size_t size, uint64_t state[CHALOENPIK_AREA_STATE], uint8_t edition, uint8_t internal);

/* Opens a ring. */
uint64_t chaloenpik_area_open_ring(uint8_t *out, size_t size, uint64_t state[CHALOENPIK_AREA_STATE], uint8_t mark);

/* The next vertex of the open ring, by the bits of its x, y and z. */
uint64_t chaloenpik_area_add_vertex(uint8_t *out, size_t size, uint64_t state[CHALOENPIK_AREA_STATE], uint64_t x, uint64_t y, uint64_t z);

/* Closes the ring. 25 at the position: it has fewer than three vertices. */
uint64_t chaloenpik_area_close_ring(uint8_t *out, size_t size, uint64_t state[CHALOENPIK_AREA_STATE], const uint8_t kept[CHALOENPIK_RING_KEPT]);

/* Finishes the area. 25 at the position: it has no ring. */
uint64_t chaloenpik_area_finish(uint8_t *out, size_t size, uint64_t state[CHALOENPIK_AREA_STATE], const uint8_t kept[CHALOENPIK_AREA_KEPT]);

#ifdef __cplusplus
}
#endif

#endif
