"""The constants of paper 01, and of a geography's body: wire types, field numbers, limits, refusal numbers.

Both directions (reader.py and encoder.py) and the generator take them from here; nothing else is shared but how a refusal is printed.
"""

# Message kinds.
LOGIN, LOGIN_REPLY, INVOCATION, REPLY = 1, 2, 3, 4
KINDS = (LOGIN, LOGIN_REPLY, INVOCATION, REPLY)

# Wire types.
ARRAY = -99
NULL = 1
TINYINT, SMALLINT, INTEGER, BIGINT = 3, 4, 5, 6
FLOAT, STRING, TIMESTAMP, DECIMAL = 8, 9, 11, 22
VARBINARY, POINT, GEOGRAPHY = 25, 26, 27

# What a column or an array element may be, and what a parameter may be.
COLUMN_TYPES = (TINYINT, SMALLINT, INTEGER, BIGINT, FLOAT, STRING, TIMESTAMP, DECIMAL, VARBINARY, POINT, GEOGRAPHY)
PARAMETER_TYPES = COLUMN_TYPES + (ARRAY, NULL)

# Types whose values are signed integers, and all whose values have a fixed size, with their sizes; types whose values are counted bodies
# and may be null.
INTEGER_SIZES = {TINYINT: 1, SMALLINT: 2, INTEGER: 4, BIGINT: 8, TIMESTAMP: 8}
FIXED_SIZES = {**INTEGER_SIZES, FLOAT: 8, DECIMAL: 16, POINT: 16}
COUNTED_TYPES = (STRING, VARBINARY, GEOGRAPHY)

# Flags of a reply.
FLAG_STATUS_STRING, FLAG_EXCEPTION, FLAG_APPLICATION_STRING = 32, 64, 128
FLAGS = FLAG_STATUS_STRING | FLAG_EXCEPTION | FLAG_APPLICATION_STRING

# Sizes.
MOST_MESSAGE = 4_194_304
MOST_BODY = 1_048_576
MOST_ROW = 2_097_152
MOST_COLUMNS = 1024
MOST_ROWS = 2_147_483_647
MOST_ITEMS = 32_767          # parameters, tables and array elements
MOST_LISTED = 65_536         # the longest message that the listing program takes
MOST_FRAME = MOST_LISTED + 1
MOST_COUNT = 2_147_483_647   # rings of an area, and vertices of a ring: what their counts can say
FEWEST_RINGS, FEWEST_VERTICES = 1, 3
RING_KEPT, AREA_KEPT = 38, 33

MOST_DECIMAL = 10**38 - 1
NULL_DECIMAL = -(2**127)
NULL_POINT = (360.0, 360.0)  # longitude and latitude; only 360.0 is equal to 360.0, so this is one value of 16 bytes

# Refusal numbers of reading.
NO_ROOM, BAD_SIGN, LIMIT, LEFT_OVER, BAD_VERSION, BAD_TYPE = 1, 2, 3, 4, 5, 6
BAD_TEXT, BAD_DECIMAL, BAD_POINT, BAD_FLAGS, BAD_NAME, BAD_GEOGRAPHY = 20, 21, 22, 23, 24, 25

# The other ones, of asking and of writing.
OUTPUT_SHORT, NO_COLUMN, STALE_CARD, PAST_END, BROKEN_CARD, WRONG_STAGE = 8, 9, 10, 11, 12, 13

# 7, a value that breaks its own rule, is none any more: request 5 split it by these causes.
CAUSES = (BAD_DECIMAL, BAD_POINT, BAD_FLAGS, BAD_NAME, BAD_GEOGRAPHY)
OF_READING = (NO_ROOM, BAD_SIGN, LIMIT, LEFT_OVER, BAD_VERSION, BAD_TYPE, BAD_TEXT, *CAUSES)
REFUSALS = (*OF_READING, OUTPUT_SHORT, NO_COLUMN, STALE_CARD, PAST_END, BROKEN_CARD, WRONG_STAGE)

# The refusal of a value that breaks the rule of its type; a type that isn't here has no such rule, or is text.
CAUSE_OF_TYPE = {DECIMAL: BAD_DECIMAL, POINT: BAD_POINT, GEOGRAPHY: BAD_GEOGRAPHY}

# Field numbers of the list.
F_LENGTH, F_VERSION, F_HASH_VERSION = 1, 2, 3
F_SERVICE, F_USER, F_HASH = 4, 6, 8
F_RESULT, F_HOST, F_CONNECTION, F_START, F_LEADER, F_BUILD = 10, 11, 12, 13, 14, 15
F_PROCEDURE, F_CLIENT_DATA, F_PARAMETERS = 20, 22, 23
F_TYPE, F_ELEMENT_TYPE, F_ELEMENTS, F_VALUE = 24, 25, 26, 27
F_FLAGS, F_STATUS, F_STATUS_STRING, F_APPLICATION, F_APPLICATION_STRING = 30, 31, 32, 34, 35
F_ROUND_TRIP, F_EXCEPTION, F_TABLES = 37, 38, 40
F_TABLE, F_METADATA, F_TABLE_STATUS, F_COLUMNS = 41, 42, 43, 44
F_COLUMN_TYPE, F_COLUMN_NAME, F_ROWS, F_ROW, F_CELL = 45, 46, 48, 49, 50

# Field numbers of the list inside a geography's body. Their indices are ring, vertex and axis.
F_EDITION, F_INTERNAL, F_HOLES, F_RING_COUNT = 60, 61, 62, 63
F_MARK, F_VERTEX_COUNT, F_COORDINATE, F_RING_KEPT, F_AREA_KEPT = 64, 65, 66, 67, 68


def refused(number, place):
    """A refusal as every program prints it."""
    return "refused %d %d" % (number, place)
