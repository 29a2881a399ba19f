"""FLOAT and DOUBLE. What is wanted is worked out by hand from MySQL's description of each type."""
import struct
import unittest

from binlogfeed import floats


class Floats(unittest.TestCase):
    """FLOAT and DOUBLE."""

    def test_floats(self):
        self.assertEqual(floats.from_raw(bytes.fromhex("0000c03f")), 1.5)
        self.assertEqual(floats.from_raw(bytes.fromhex("000000000000f83f")), 1.5)
        self.assertEqual(floats.from_raw(bytes.fromhex("cdcccc3d")), 13421773 / 2**27)
        with self.assertRaises(KeyError):
            floats.from_raw(b"123")

    def test_shortest(self):
        # Among them the greatest FLOAT, the least above 0, and the least above 1. 1.2379401e27 reads back as 2^90, whose neighbours are
        # 2^67 above it and 2^66 below it. No other number of eight digits does: 1.23794e27 is closer, but closer still to the one below.
        for value in (0.1, 0.35, 1.2, -1.2, 0.0, 16777216.0, 3.4028235e38, 1e-45, 1.0000001, 1.2379401e27):
            self.assertEqual(floats.shortest(struct.pack("<f", value)), value)
        self.assertEqual(struct.pack("<f", 1.2379401e27), struct.pack("<f", 2.0**90))
        for raw, wanted in (("0000807f", "inf"), ("000080ff", "-inf"), ("0000c07f", "nan")):
            self.assertEqual(repr(floats.shortest(bytes.fromhex(raw))), wanted)
        self.assertEqual(floats.shortest(struct.pack("<d", 0.1)), 0.1)
        self.assertEqual((floats.shortest(0.1), floats.from_raw(0.1)), (0.1, 0.1))

    def test_every_float_of_some(self):
        for code in range(0, 0x7F800000, 7_654_321):
            raw = struct.pack("<I", code)
            short = floats.shortest(raw)
            self.assertEqual(struct.pack("<f", short), raw)
            self.assertEqual(short, float(f"{short:.9g}"))
