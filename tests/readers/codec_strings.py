"""Computes the string of a codec a second time, by RFC 6381, ISO/IEC 14496-15 (E.3), ISO/IEC 14496-1 (7.2.6), and the
bindings of AV1, VP8 and VP9, and Dolby Vision. `string_of` takes the code of a sample entry and the content of each box
in it, both as bytes. `rows` reads the rows of tests/rows/codec_strings.txt."""

from pathlib import Path

ROWS = Path(__file__).resolve().parent.parent / "rows" / "codec_strings.txt"


class Bits:
    """Bits, taken from the front."""

    def __init__(self, data):
        self.text = "".join(f"{byte:08b}" for byte in data)

    def take(self, count):
        taken, self.text = self.text[:count], self.text[count:]
        return int(taken.ljust(count, "0") or "0", 2)


def two(number):
    return str(number).zfill(2)


def avc(content):
    return content[1:4].hex()


def hevc(content):
    bits = Bits(content[1:])
    space, tier, profile = bits.take(2), bits.take(1), bits.take(5)
    flags = [bits.take(1) for _ in range(32)]
    constraints = [bits.take(8) for _ in range(6)]
    while constraints and constraints[-1] == 0:
        constraints.pop()
    compatible = sum(2**number for number, flag in enumerate(flags) if flag)
    parts = [["", "A", "B", "C"][space] + str(profile), f"{compatible:X}", "LH"[tier] + str(bits.take(8))]
    return ".".join(parts + [f"{byte:X}" for byte in constraints])


def numbers_of(colr):
    """Returns primaries, transfer characteristics, matrix and range of the content of a `colr`, if it has them."""
    if colr is None or colr[:4] != b"nclx":
        return None
    bits = Bits(colr[4:])
    return [bits.take(16) for _ in range(3)] + [bits.take(1)]


def av1(content, colr):
    bits = Bits(content[1:])
    profile, level, tier, high, twelve, mono, x, y, position = map(bits.take, (3, 5, 1, 1, 1, 1, 1, 1, 2))
    depth = (12 if twelve and profile == 2 else 10) if high else 8
    text = f"{profile}.{two(level)}{'MH'[tier]}.{two(depth)}"
    colours = numbers_of(colr)
    if colours is None:
        return text
    optional = [str(mono), f"{x}{y}{position if (x, y) == (1, 1) else 0}", *map(two, colours[:3]), str(colours[3])]
    return text if optional == "0 110 01 01 01 0".split() else ".".join([text, *optional])


def vp(content):
    bits = Bits(content[4:])
    profile, level, depth, chroma, wide = map(bits.take, (8, 8, 4, 3, 1))
    optional = [chroma, *(bits.take(8) for _ in range(3)), wide]
    return ".".join(map(two, [profile, level, depth, *([] if optional == [1, 1, 1, 1, 0] else optional)]))


def descriptors(data):
    """Yields the tag and the content of each descriptor (ISO/IEC 14496-1, 8.3.3)."""
    at = 0
    while at < len(data):
        tag, length, more = data[at], 0, True
        while more:
            at += 1
            if at >= len(data):
                return
            more, length = data[at] >= 128, length * 128 + data[at] % 128
        yield tag, data[at + 1:at + 1 + length]
        at += 1 + length


def first(data, tag):
    return next((content for found, content in descriptors(data) if found == tag), None)


def after_flags(stream):
    """Returns the descriptors in an elementary stream descriptor (7.2.6.5)."""
    flags, rest = stream[2], stream[3:]
    if flags & 0x80:
        rest = rest[2:]
    if flags & 0x40:
        rest = rest[1 + rest[0]:]
    return rest[2:] if flags & 0x20 else rest


def mpeg4(content):
    decoder = first(after_flags(first(content[4:], 3)), 4)
    object_type, specific = decoder[0], first(decoder[13:], 5)
    text = f"{object_type:02X}"
    if object_type == 0x40 and specific:
        bits = Bits(specific)
        audio_type = bits.take(5)
        audio_type = 32 + bits.take(6) if audio_type == 31 else audio_type
        return f"{text}.{audio_type}" if audio_type else text
    if object_type == 0x20 and specific:
        at = specific.find(b"\0\0\1\xb0")
        return f"{text}.{specific[at + 4]}" if 0 <= at < len(specific) - 4 else text
    return text


def dolby(content):
    bits = Bits(content[2:])
    return ".".join([two(bits.take(7)), two(bits.take(6))]) if len(content) >= 4 else None


def elements_of(code, boxes):
    """Returns what follows the code in a string, or None if nothing does."""
    if code in (b"avc1", b"avc2", b"avc3", b"avc4") and b"avcC" in boxes:
        return avc(boxes[b"avcC"])
    if code in (b"hvc1", b"hev1") and b"hvcC" in boxes:
        return hevc(boxes[b"hvcC"])
    if code in (b"dvh1", b"dvhe", b"dva1", b"dvav") and {b"dvcC", b"dvvC"} & {*boxes}:
        return dolby(boxes.get(b"dvcC") or boxes[b"dvvC"])
    if code == b"av01" and b"av1C" in boxes:
        return av1(boxes[b"av1C"], boxes.get(b"colr"))
    if code in (b"vp08", b"vp09") and b"vpcC" in boxes:
        return vp(boxes[b"vpcC"])
    if code in (b"mp4a", b"mp4v") and b"esds" in boxes:
        return mpeg4(boxes[b"esds"])
    return None


def string_of(code, boxes):
    """Returns the string of a sample entry. Of an encrypted one `boxes` has the `frma` of its `sinf`."""
    if code in (b"encv", b"enca", b"enct") and b"frma" in boxes:
        code = boxes[b"frma"][:4]
    elements = elements_of(code, boxes)
    return code.decode("latin-1") + ("" if elements is None else "." + elements)


def rows():
    """Yields the number of a line, the string, the code of the entry, and its boxes."""
    for number, line in enumerate(ROWS.read_text(encoding="utf-8").splitlines(), 1):
        if not line or line.startswith("#"):
            continue
        text, code, boxes, _ = (part.strip() for part in line.split("|"))
        found = [box.split(maxsplit=1) for box in boxes.split(";") if box.strip()]
        yield number, text, code.encode(), {name.encode(): bytes.fromhex(digits) for name, digits in found}
