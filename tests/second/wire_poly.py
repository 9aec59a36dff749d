"""Document 000's polygon with a hole, as printed there: the points, and the table WirePoly of its bytes."""

import math
import struct

# Longitude, latitude, x, y, z: "XYZPoint values for points in Table WirePoly".
POINTS = (
    (0.000000, 0.000000, 1.000000, 0.000000, 0.000000),
    (1.000000, 0.000000, 0.999848, 0.017452, 0.000000),
    (1.000000, 1.000000, 0.999695, 0.017450, 0.017452),
    (0.000000, 1.000000, 0.999848, 0.000000, 0.017452),
    (0.100000, 0.100000, 0.999997, 0.001745, 0.001745),
    (0.100000, 0.900000, 0.999875, 0.001745, 0.015707),
    (0.900000, 0.900000, 0.999753, 0.015705, 0.015707),
    (0.900000, 0.100000, 0.999875, 0.015707, 0.001745),
)

# Byte offset, length in bytes, value; a value of 38 or 33 bytes is zeros.
TABLE = (
    (0, 1, 0), (1, 1, 1), (2, 1, 1), (3, 4, 2),
    (7, 1, 0), (8, 4, 4),
    (12, 8, 1.000000), (20, 8, 0.000000), (28, 8, 0.000000),
    (36, 8, 0.999848), (44, 8, 0.017452), (52, 8, 0.000000),
    (60, 8, 0.999695), (68, 8, 0.017450), (76, 8, 0.017452),
    (84, 8, 0.999848), (92, 8, 0.000000), (100, 8, 0.017452),
    (108, 38, 0),
    (146, 1, 0), (147, 4, 4),
    (151, 8, 0.999997), (159, 8, 0.001745), (167, 8, 0.001745),
    (175, 8, 0.999875), (183, 8, 0.015707), (191, 8, 0.001745),
    (199, 8, 0.999753), (207, 8, 0.015705), (215, 8, 0.015707),
    (223, 8, 0.999875), (231, 8, 0.001745), (239, 8, 0.015707),
    (247, 38, 0),
    (285, 33, 0),
)


def body():
    return b"".join(struct.pack(">d", value) if size == 8 else value.to_bytes(size, "big") for _, size, value in TABLE)


def vertex(longitude, latitude):
    """x, y and z of a place in degrees. The document's pseudo-code for this has a slip: it takes the cosine of the longitude for y too, where
    it must be the sine. So say its own points above, and its formula for the way back."""
    longitude, latitude = math.radians(longitude), math.radians(latitude)
    return math.cos(longitude) * math.cos(latitude), math.sin(longitude) * math.cos(latitude), math.sin(latitude)
