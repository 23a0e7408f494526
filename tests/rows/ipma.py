"""`ipma`, the properties of items: numbers of items of 2 bytes in version 0 and of 4 in version 1, and properties of a
byte, or of two bytes with flag 1. The bytes of the fields count up from 0x81, after the version and around the
counts."""

from tests.rows.making import (
    END, TOO_MANY_ENTRIES, WRONG_VERSION, Box, box, changed, counting, declared, declared_as, fields, full, resized, u8,
    u16, u32,
)

# Two items: with two properties, and with one. The bits of 0x85 are 1 0000101, and those of 0x06 are 0 0000110.
SHORT = box(b"ipma", b"\0\x81\x82\x82", u32(2), u16(0x8384), b"\2\x85\x06", u16(0x8788), b"\1\x89")
# Items with no property and with two. The first bits of 0x8788 and 0x098a are 1 and 0.
LONG = box(b"ipma", b"\1\x81\x82\x83", u32(2), counting(0x83, 0x86), b"\0", counting(0x8B, 0x8E),
           b"\2\x87\x88\x09\x8a")


def item(number, short=None, long=None):
    """Returns an item with properties in one of two lists, each as whether it is essential, and its number."""
    lists = [its and [{"essential": one, "property_index": other} for one, other in its] for its in (short, long)]
    return {"item_id": number, "associations": lists[0], "long_associations": lists[1]}


def ipma(version, flags, *items):
    return Box("ipma", version=version, flags=flags, entries=list(items))


ITEMS = item(0x8384, short=[(True, 5), (False, 6)]), item(0x8788, short=[(True, 9)])
LONG_ITEMS = item(0x83848586, long=[]), item(0x8B8C8D8E, long=[(True, 0x0788), (False, 0x098A)])


def each_width():
    yield from declared_as(SHORT, ipma(0, 0x818282, *ITEMS))
    yield from declared_as(LONG, ipma(1, 0x818283, *LONG_ITEMS))
    other = box(b"ipma", b"\0\0\0\1", u32(1), u16(0x8182), b"\1\x83\x84")
    yield from declared_as(other, ipma(0, 1, item(0x8182, long=[(True, 0x0384)])))
    other = box(b"ipma", b"\1\0\0\0", u32(1), counting(0x81, 0x84), b"\1\x05")
    yield from declared_as(other, ipma(1, 0, item(0x81828384, short=[(False, 5)])))


def no_items():
    yield from declared_as(box(b"ipma", b"\0\0\0\2", u32(0)), ipma(0, 2))


def counts_that_are_too_small():
    """Bytes after the counted items are left out."""
    yield declared(changed(SHORT, {15: 1}), ipma(0, 0x818282, ITEMS[0]), resized(changed(SHORT[:21], {15: 1}), 21))


def counts_that_are_too_large():
    yield declared(changed(SHORT, {15: 3}), END)
    yield declared(changed(SHORT, {len(SHORT) - 2: 2}), TOO_MANY_ENTRIES)
    yield declared(resized(SHORT, len(SHORT) - 1), TOO_MANY_ENTRIES)


def version_2():
    yield declared(changed(LONG, {8: 2}), WRONG_VERSION)


def fields_of_properties():
    """ISO/IEC 23008-12, 9.3.1. The bits of the first property are 1 0000011, or 1 000000000000011."""
    both = [{"essential": 1, "property_index": 3}, {"essential": 0, "property_index": 4}]
    yield fields(
        full(b"ipma", u32(1), u16(1), u8(2, 0x83, 4)),
        version=0, flags=0, entry_count=1, entries=[{"item_ID": 1, "associations": both}],
    )
    yield fields(
        full(b"ipma", u32(1), u32(0x1_0000), u8(2), u16(0x8003, 4), version=1, flags=1),
        version=1, flags=1, entry_count=1, entries=[{"item_ID": 65536, "associations": both}],
    )
