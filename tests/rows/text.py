"""`text` in a `gmhd`, the place of text, a box without version: nine signed numbers. The bytes count up from 0x71. A
byte above 0x7f begins a negative number: 0x81828384 is 0x7e7d7c7c less than 0."""

from tests.rows.making import Box, box, counting, declared_as, fields, u32


def nine_numbers():
    numbers = {
        "a": 0x71727374, "b": 0x75767778, "u": 0x797A7B7C, "c": 0x7D7E7F80, "d": -0x7E7D7C7C, "v": -0x7A797878,
        "x": -0x76757474, "y": -0x72717070, "w": -0x6E6D6C6C,
    }
    yield from declared_as(box(b"text", counting(0x71, 0x94)), Box("text", **numbers))


def fields_of_a_place():
    """QuickTime File Format, "Text media information atom"."""
    # Takes numbers of 16.16 bits, and u, v and w of 2.30 bits. The negative ones are -0x8000, -0x20000000 and -0x60000.
    rows = u32(0x1_0000, 0xFFFF_8000, 0x4000_0000, 0x2_0000, 0x3_4000, 0xE000_0000, 0x5_0000, 0xFFFA_0000, 0x1000_0000)
    text = box(b"text", rows)
    yield fields(box(b"gmhd", text), a=1.0, b=-0.5, u=1.0, c=2.0, d=3.25, v=-0.5, x=5.0, y=-6.0, w=0.25)
