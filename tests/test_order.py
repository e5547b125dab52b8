"""The order of the functions of a WebAssembly module: wasm/order.py."""
import pathlib
import sys
import unittest

sys.path.insert(0, str(pathlib.Path(__file__).resolve().parent.parent / "wasm"))

import order  # noqa: E402

HEAD = b"\0asm\1\0\0\0"
# No parameter and a number as the result, and the other way round.
TYPES = [b"\x60\0\1\x7f", b"\x60\1\x7f\0"]
# The import is function 0. Of the functions behind it the first and the third are alike.
LONG = bytes(it for number in range(40) for it in (0x41, number, 0x1A))
BODIES = {
    1: b"\0" + LONG + b"\x10\0\x0b",
    2: b"\1\2\x7f\x20\0\x24\0\x10\x83\0\x44\x10\x10\x10\x10\x10\x10\x10\x10\x1a\x0b",
    3: b"\0" + LONG + b"\x10\2\x0b",
}


def listing(items):
    return order.written(len(items)) + b"".join(items)


def section(kind, items):
    return bytes([kind]) + order.sized(listing(items))


def module(bodies, kinds, exported, *more):
    return HEAD + b"".join(
        [
            section(1, TYPES),
            section(2, [b"\1h\1f\0\0"]),
            section(3, [bytes([it]) for it in kinds]),
            section(7, [b"\6memory\2\0", b"\4main\0" + bytes([exported])]),
            section(10, [order.sized(it) for it in bodies]),
            *more,
        ]
    )


class Order(unittest.TestCase):
    def test_similar_functions_stand_side_by_side(self):
        made = order.ordered(module(BODIES.values(), (0, 1, 0), 3))
        # The third function is the second now: calls and exports have the new numbers, and nothing else changes.
        one, two = BODIES[1], BODIES[2].replace(b"\x10\x83\0", b"\x10\2")
        self.assertEqual(made, module([one, BODIES[3].replace(b"\x10\2", b"\x10\3"), two], (0, 0, 1), 2))

    def test_a_module_in_its_order_stays_as_it_is(self):
        made = order.ordered(module(BODIES.values(), (0, 1, 0), 3))
        self.assertEqual(order.ordered(made), made)

    def test_what_is_not_known_is_refused(self):
        unknown = {
            "a table": module(BODIES.values(), (0, 1, 0), 3, section(4, [b"\x70\0\0"])),
            "a name": module(BODIES.values(), (0, 1, 0), 3, b"\0\2\1n"),
            "an indirect call": module([b"\0\x11\0\0\x0b"], (0,), 1),
            "a vector": module([b"\0\xfd\x0c" + bytes(16) + b"\x0b"], (0,), 1),
            "a range of a table": module([b"\0\xfc\x0e\0\0\x0b"], (0,), 1),
        }
        for name, given in unknown.items():
            with self.subTest(name), self.assertRaises(order.Unknown):
                order.ordered(given)


if __name__ == "__main__":
    unittest.main()
