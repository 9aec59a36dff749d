/* The words for the numbers of chaloenpik.h, to be printed: refusals, how a card fits, kinds, wire types and fields. */
#ifndef CHALOENPIK_WORDS_H
#define CHALOENPIK_WORDS_H

#include "chaloenpik.h"

/* When a refusal is given. */
static inline const char *chaloenpik_refusal_text(unsigned refusal) {
    switch (refusal) {
    case 0: return "not refused";
    case CHALOENPIK_NO_ROOM: return "a field, or a counted body, doesn't fit its room";
    case CHALOENPIK_NEGATIVE: return "a length or count is negative and not a permitted -1, or the message length is 0";
    case CHALOENPIK_LIMIT: return "a limit is passed";
    case CHALOENPIK_LEFT_OVER: return "bytes are left in a room after its last field";
    case CHALOENPIK_BAD_VERSION: return "the version byte or the hash version is not 0 or 1";
    case CHALOENPIK_BAD_TYPE: return "the wire type is unknown or not permitted there, or there is no such kind";
    case CHALOENPIK_OUTPUT_SHORT: return "the output is too short";
    case CHALOENPIK_NO_COLUMN: return "no column has that name";
    case CHALOENPIK_CARD_STALE: return "a well-formed card doesn't fit the table";
    case CHALOENPIK_PAST_END: return "a table, row, column, ring, vertex, list entry or byte offset is past the end, or a column entry past its name buffer, or a cell past the lent bytes";
    case CHALOENPIK_CARD_BROKEN: return "a card breaks its form";
    case CHALOENPIK_BAD_STAGE: return "a writer step comes at a stage, or with a saved state, that doesn't permit it";
    case CHALOENPIK_BAD_TEXT: return "a text isn't well-formed UTF-8";
    case CHALOENPIK_BAD_DECIMAL: return "a decimal is out of its range and isn't null";
    case CHALOENPIK_BAD_POINT: return "a point is neither a position nor null";
    case CHALOENPIK_BAD_FLAGS: return "the flag byte has a bit set other than 32, 64 and 128";
    case CHALOENPIK_BAD_NAME: return "a column's name has a byte above 127";
    case CHALOENPIK_BAD_GEOGRAPHY: return "a geography is empty";
    default: return "unknown";
    }
}

/* When a refusal of an area is given: what its body says has rules that a message doesn't look at. */
static inline const char *chaloenpik_area_refusal_text(unsigned refusal) {
    if (refusal == CHALOENPIK_BAD_GEOGRAPHY) return "the third byte doesn't fit the ring count, or there are too few rings or vertices";
    return chaloenpik_refusal_text(refusal);
}

/* How a card fits. */
static inline const char *chaloenpik_fit_text(uint64_t fit) {
    switch (fit) {
    case CHALOENPIK_FITS: return "it fits";
    case CHALOENPIK_COLUMN_PAST: return "its position is past the last column";
    case CHALOENPIK_OTHER_TYPE: return "the column at its position has another type";
    case CHALOENPIK_OTHER_NAME: return "the column at its position has another name";
    default: return "unknown";
    }
}

/* A kind of message. */
static inline const char *chaloenpik_kind_text(uint64_t kind) {
    switch (kind) {
    case CHALOENPIK_LOGIN_REQUEST: return "login request";
    case CHALOENPIK_LOGIN_RESPONSE: return "login response";
    case CHALOENPIK_INVOCATION: return "invocation";
    case CHALOENPIK_RESPONSE: return "invocation response";
    default: return "unknown";
    }
}

/* A wire type. */
static inline const char *chaloenpik_type_text(uint64_t type) {
    switch (type) {
    case CHALOENPIK_NULL: return "null";
    case CHALOENPIK_TINYINT: return "tinyint";
    case CHALOENPIK_SMALLINT: return "smallint";
    case CHALOENPIK_INTEGER: return "integer";
    case CHALOENPIK_BIGINT: return "bigint";
    case CHALOENPIK_FLOAT: return "float";
    case CHALOENPIK_STRING: return "string";
    case CHALOENPIK_TIMESTAMP: return "timestamp";
    case CHALOENPIK_DECIMAL: return "decimal";
    case CHALOENPIK_VARBINARY: return "varbinary";
    case CHALOENPIK_POINT: return "point";
    case CHALOENPIK_GEOGRAPHY: return "geography";
    case CHALOENPIK_ARRAY: return "array";
    default: return "unknown";
    }
}

/* A field. */
static inline const char *chaloenpik_field_text(uint64_t field) {
    switch (field) {
    case CHALOENPIK_FIELD_MESSAGE_LENGTH: return "message length";
    case CHALOENPIK_FIELD_VERSION: return "version";
    case CHALOENPIK_FIELD_HASH_VERSION: return "hash version";
    case CHALOENPIK_FIELD_SERVICE_LENGTH: return "service length";
    case CHALOENPIK_FIELD_SERVICE: return "service";
    case CHALOENPIK_FIELD_USER_LENGTH: return "user length";
    case CHALOENPIK_FIELD_USER: return "user";
    case CHALOENPIK_FIELD_HASH: return "hash";
    case CHALOENPIK_FIELD_RESULT: return "result";
    case CHALOENPIK_FIELD_HOST: return "host";
    case CHALOENPIK_FIELD_CONNECTION: return "connection";
    case CHALOENPIK_FIELD_START: return "start";
    case CHALOENPIK_FIELD_LEADER: return "leader";
    case CHALOENPIK_FIELD_BUILD_LENGTH: return "build length";
    case CHALOENPIK_FIELD_BUILD: return "build";
    case CHALOENPIK_FIELD_PROCEDURE_LENGTH: return "procedure length";
    case CHALOENPIK_FIELD_PROCEDURE: return "procedure";
    case CHALOENPIK_FIELD_CLIENT_DATA: return "client data";
    case CHALOENPIK_FIELD_PARAMETER_COUNT: return "parameter count";
    case CHALOENPIK_FIELD_WIRE_TYPE: return "wire type";
    case CHALOENPIK_FIELD_ELEMENT_TYPE: return "element type";
    case CHALOENPIK_FIELD_ELEMENT_COUNT: return "element count";
    case CHALOENPIK_FIELD_VALUE_LENGTH: return "value length";
    case CHALOENPIK_FIELD_VALUE: return "value";
    case CHALOENPIK_FIELD_FLAGS: return "flags";
    case CHALOENPIK_FIELD_STATUS: return "status";
    case CHALOENPIK_FIELD_STATUS_STRING_LENGTH: return "status string length";
    case CHALOENPIK_FIELD_STATUS_STRING: return "status string";
    case CHALOENPIK_FIELD_APPLICATION_STATUS: return "application status";
    case CHALOENPIK_FIELD_APPLICATION_STRING_LENGTH: return "application string length";
    case CHALOENPIK_FIELD_APPLICATION_STRING: return "application string";
    case CHALOENPIK_FIELD_ROUND_TRIP: return "round trip";
    case CHALOENPIK_FIELD_EXCEPTION_LENGTH: return "exception length";
    case CHALOENPIK_FIELD_EXCEPTION: return "exception";
    case CHALOENPIK_FIELD_TABLE_COUNT: return "table count";
    case CHALOENPIK_FIELD_TABLE_LENGTH: return "table length";
    case CHALOENPIK_FIELD_METADATA_LENGTH: return "metadata length";
    case CHALOENPIK_FIELD_TABLE_STATUS: return "table status";
    case CHALOENPIK_FIELD_COLUMN_COUNT: return "column count";
    case CHALOENPIK_FIELD_COLUMN_TYPE: return "column type";
    case CHALOENPIK_FIELD_COLUMN_NAME_LENGTH: return "column name length";
    case CHALOENPIK_FIELD_COLUMN_NAME: return "column name";
    case CHALOENPIK_FIELD_ROW_COUNT: return "row count";
    case CHALOENPIK_FIELD_ROW_LENGTH: return "row length";
    case CHALOENPIK_FIELD_CELL_LENGTH: return "cell length";
    case CHALOENPIK_FIELD_CELL: return "cell";
    case CHALOENPIK_FIELD_AREA_EDITION: return "encoding version";
    case CHALOENPIK_FIELD_AREA_INTERNAL: return "internal";
    case CHALOENPIK_FIELD_AREA_HOLES: return "holes";
    case CHALOENPIK_FIELD_RING_COUNT: return "ring count";
    case CHALOENPIK_FIELD_RING_MARK: return "ring mark";
    case CHALOENPIK_FIELD_VERTEX_COUNT: return "vertex count";
    case CHALOENPIK_FIELD_COORDINATE: return "coordinate";
    case CHALOENPIK_FIELD_RING_KEPT: return "ring's kept bytes";
    case CHALOENPIK_FIELD_AREA_KEPT: return "kept bytes";
    default: return "unknown";
    }
}

#endif
