"""The words of the paper: what its numbers are called and what they mean."""

KINDS = {1: "login request", 2: "login response", 3: "invocation", 4: "invocation response"}
RESPONSE = 4

# Field number: its name, and how its bytes are to be shown (a function of fields.py goes by this word).
FIELDS = {
    1: ("message length", "length"),
    2: ("version", "number"),
    3: ("hash version", "hash version"),
    4: ("service length", "length"),
    5: ("service", "text"),
    6: ("user length", "length"),
    7: ("user", "text"),
    8: ("hash", "opaque"),
    10: ("result", "result"),
    11: ("host", "number"),
    12: ("connection", "number"),
    13: ("start", "milliseconds"),
    14: ("leader", "address"),
    15: ("build length", "length"),
    16: ("build", "text"),
    20: ("procedure length", "length"),
    21: ("procedure", "text"),
    22: ("client data", "opaque"),
    23: ("parameter count", "number"),
    24: ("wire type", "type"),
    25: ("element type", "type"),
    26: ("element count", "element count"),
    27: ("value length", "length"),
    28: ("value", "value"),
    30: ("flags", "flags"),
    31: ("status", "status"),
    32: ("status string length", "length"),
    33: ("status string", "text"),
    34: ("application status", "number"),
    35: ("application string length", "length"),
    36: ("application string", "text"),
    37: ("round trip", "duration"),
    38: ("exception length", "length"),
    39: ("exception", "opaque"),
    40: ("table count", "number"),
    41: ("table length", "length"),
    42: ("metadata length", "length"),
    43: ("table status", "number"),
    44: ("column count", "number"),
    45: ("column type", "type"),
    46: ("column name length", "length"),
    47: ("column name", "text"),
    48: ("row count", "number"),
    49: ("row length", "length"),
    50: ("cell length", "length"),
    51: ("cell", "value"),
    # Inside the body of a geography, which has a list of its own.
    60: ("encoding version", "byte"),
    61: ("internal", "byte"),
    62: ("holes", "holes"),
    63: ("ring count", "number"),
    64: ("ring mark", "byte"),
    65: ("vertex count", "number"),
    66: ("coordinate", "float"),
    67: ("ring's kept bytes", "opaque"),
    68: ("kept bytes", "opaque"),
}

# The fields that the indices are told for, and those that this tool looks up or looks at.
PARAMETER_FIELDS = range(24, 29)
TABLE_FIELDS = range(41, 52)
AREA_FIELDS, RING_FIELDS = range(60, 69), range(64, 68)
MESSAGE_LENGTH, FLAG_BYTE, STATUS_LENGTH, APPLICATION_LENGTH, EXCEPTION_LENGTH = 1, 30, 32, 35, 38
PARAMETER_COUNT, PARAMETER_TYPE, ELEMENT_TYPE, ELEMENT_COUNT, VALUE_LENGTH, VALUE = 23, 24, 25, 26, 27, 28
TABLE_COUNT, TABLE_LENGTH, METADATA_LENGTH, TABLE_STATUS, COLUMN_COUNT = 40, 41, 42, 43, 44
COLUMN_TYPE, COLUMN_NAME_LENGTH, COLUMN_NAME, ROW_COUNT, ROW_LENGTH, CELL_LENGTH, CELL = 45, 46, 47, 48, 49, 50, 51
RING_COUNT, RING_MARK, VERTEX_COUNT, COORDINATE = 63, 64, 65, 66
AXES = "xyz"

ARRAY, NULL, TINYINT, STRING, DECIMAL, FLOAT, TIMESTAMP, VARBINARY, POINT, GEOGRAPHY = -99, 1, 3, 9, 22, 8, 11, 25, 26, 27
TYPES = {
    ARRAY: "array", NULL: "null", TINYINT: "tinyint", 4: "smallint", 5: "integer", 6: "bigint", FLOAT: "float", STRING: "string",
    TIMESTAMP: "timestamp", DECIMAL: "decimal", VARBINARY: "varbinary", POINT: "point", GEOGRAPHY: "geography",
}

FLAGS = {32: "status string", 64: "exception", 128: "application string"}
RESULTS = {0: "accepted", 1: "too many connections", 2: "the client took too long", 3: "corrupt or invalid login"}
STATUSES = {1: "success", -1: "user abort", -2: "graceful failure", -3: "unexpected failure", -4: "connection lost"}
HASHES = {0: "SHA-1", 1: "SHA-256"}
HOLES = {0: "none", 1: "there are some"}

# The rules of values. Null is a length of its own, one decimal that is out of the range, or a point with these degrees twice.
NULL_LENGTH = -1
DECIMAL_PLACES, DECIMAL_DIGITS, DECIMAL_BITS = 12, 38, 128
MOST_DECIMAL, NULL_DECIMAL = 10**DECIMAL_DIGITS - 1, -(2**(DECIMAL_BITS - 1))  # in units; the least decimal is the greatest one with a minus
MOST_LONGITUDE, MOST_LATITUDE, NULL_DEGREES = 180, 90, 360
MOST_IN_NAME = 127  # a byte of a column's name
SHORTEST_GEOGRAPHY = 1

# The rules of an area, and where in its body the fields stand that some of them are about.
FEWEST_RINGS, FEWEST_VERTICES = 1, 3
HOLES_AT, RING_COUNT_AT, COUNT_SIZE = 2, 3, 4

# Refusal numbers of reading. From 21 on each is one of the causes that had the number 7 together.
NO_ROOM, BAD_SIGN, LIMIT, LEFT_OVER, BAD_VERSION, BAD_TYPE, BAD_TEXT = 1, 2, 3, 4, 5, 6, 20
BAD_DECIMAL, BAD_POINT, BAD_FLAGS, BAD_NAME, BAD_GEOGRAPHY = 21, 22, 23, 24, 25

# Refusal number: when it is given, and what its place is.
REFUSALS = {
    NO_ROOM: ("a field, or a counted body, doesn't fit its room", "the field; for a body, its length field"),
    BAD_SIGN: ("a length or count is negative and not a permitted -1, or the message length is 0", "that length or count"),
    LIMIT: ("a limit is passed", "that length or count"),
    LEFT_OVER: ("bytes are left in a room after its last field", "the first such byte"),
    BAD_VERSION: ("the version byte or the hash version is not 0 or 1", "that byte"),
    BAD_TYPE: ("the wire type is unknown or not permitted there, or there is no such kind", "that byte; 0 for a kind"),
    BAD_TEXT: ("a text isn't well-formed UTF-8", "the first byte that begins no well-formed sequence"),
    BAD_DECIMAL: ("a decimal is out of its range and isn't null", "its first byte"),
    BAD_POINT: ("a point is neither a position nor null", "its first byte"),
    BAD_FLAGS: ("the flag byte has a bit set other than %d, %d and %d" % tuple(FLAGS), "that byte"),
    BAD_NAME: ("a column's name has a byte above %d" % MOST_IN_NAME, "the first such byte"),
    BAD_GEOGRAPHY: ("a geography is empty", "its length field"),
}

# Why the body of a geography is no area, if no rule above says it.
NO_AREA = {
    NO_ROOM: "a field doesn't fit",
    BAD_SIGN: "a count is negative",
    LEFT_OVER: "bytes are left after the last field",
}

# Refusal numbers of opening a shortcut card over a table of an accepted response, and when they are given.
CARD_STALE, NO_TABLE, CARD_BROKEN = 10, 11, 12
CARD_REFUSALS = {
    CARD_STALE: "a well-formed card doesn't fit the table",
    NO_TABLE: "there is no such table",
    CARD_BROKEN: "a card breaks its form",
}

# Whether a well-formed card fits a table, or why it doesn't: the first of these that is so.
FITS = {0: "it fits", 1: "its position is past the last column", 2: "the column at its position has another type", 3: "the column at its position has another name"}
COLUMN_PAST = 1

# The longest message, its length field included, and the longest that the listing program takes.
MOST_BYTES = 4_194_308
MOST_LISTED = 65_536
