"""Reads boxes slowly and plainly, by docs/LAYOUT.md only: a second reader to compare the codec with.

A box is a dictionary of its fields, under the names of the struct. Codes and fixed-point numbers are raw numbers, a
missing option is None, and a value of an enum is its name. `read_box` reads one box, and `read_boxes` a list of boxes,
of which boxes of other types are kept or skipped. With `more`, the boxes of extra.py are read as well. `places`
returns the places of the boxes of a buffer.
"""

from functools import lru_cache, partial

from tests.readers.extra import MORE, extra_box
from tests.readers.fields import FIXED, FULL, TABLES, Row, counted, fixed, ftyp, read_fields, stsz, table
from tests.readers.fields import tfhd, trun
from tests.readers.headers import Fault, Header, check, headers

SAMPLE_ENTRIES = ["avc1", "hev1", "vp09", "mp4a", "tx3g"]
DATA_TYPES = {0: "Binary", 1: "Text", 13: "Image", 21: "TempoCpil"}


def text_or(found, other):
    try:
        return found.decode("utf-8")
    except UnicodeDecodeError:
        return other


def hdlr(row):
    box = read_fields(row, table("8 4 F, 12 4 -, 16 4 handler_type"))
    check(row.size >= 33, "hdlr size too small")
    box["name"] = text_or(row.piece(32, row.size - 33), "null")
    return box


def url(row):
    box = read_fields(row, FULL)
    box["location"] = text_or(row.piece(12, row.size - 13), "") if row.size >= 13 else ""
    return box


def data(row):
    indicator = row.number(8, 4)
    check(indicator in DATA_TYPES, "invalid data type")
    row.piece(12, 4)
    check(row.size >= 16, "box size too small")
    return {"data_type": DATA_TYPES[indicator], "data_bytes": list(row.piece(16, row.size - 16))}


def string(row, offset):
    """Reads the string at `offset`. Returns the string and the offset after its zero byte."""
    end = offset
    while row.number(end, 1) != 0:
        end += 1
    try:
        return row.piece(offset, end - offset).decode("utf-8"), end + 1
    except UnicodeDecodeError:
        raise Fault("Invalid", "invalid utf8") from None


def emsg(row):
    box = read_fields(row, FULL)
    check(box["version"] in (0, 1), "version must be 0 or 1")
    box.update(presentation_time=None, presentation_time_delta=None)
    if box["version"] == 0:
        box["scheme_id_uri"], then = string(row, 12)
        box["value"], then = string(row, then)
        for name in ("timescale", "presentation_time_delta", "event_duration", "id"):
            box[name] = row.number(then, 4)
            then += 4
    else:
        box.update(read_fields(row, table("12 4 timescale, 16 8 presentation_time, 24 4 event_duration, 28 4 id")))
        box["scheme_id_uri"], then = string(row, 32)
        box["value"], then = string(row, then)
    check(row.size >= then, "box size too small")
    box["message_data"] = list(row.piece(then, row.size - then))
    return box


def children(row, offset, most, name):
    """Reads those children of a `dref` or `dinf` that have the name `name`, and skips the others. It starts at `offset`
    and visits at most `most` children. Returns the last child that it read."""
    last = None
    while most > 0 and offset < row.size:
        child = Header(row.buffer, row.start + offset)
        check(child.size >= 8, "child box too small")
        check(child.size <= row.size, "dinf box contains a box with a larger size than it")
        check(child.start + child.size <= 2**64 - 1, "box end past 64 bits")
        if child.name == name:
            last = read_row(row.buffer, child)
        offset = child.start + child.size - row.start
        most -= 1
    return last


def dref(row):
    box = read_fields(row, table("8 4 F, 12 4 count"))
    box["url"] = children(row, 16, box.pop("count"), "url ")
    return box


def dinf(row):
    found = children(row, 8, 2**64, "dref")
    if found is None:
        raise Fault("NotFound", "dref")
    return {"dref": found}


def sets(row, offset, count):
    found = []
    for _ in range(count):
        length = row.number(offset, 2)
        found.append({"bytes": list(row.piece(offset + 2, length))})
        offset += 2 + length
    return found, offset


def avcc(row):
    box = read_fields(row, table("""8 1 configuration_version, 9 1 avc_profile_indication, 10 1 profile_compatibility,
        11 1 avc_level_indication, 12 1 length_size_minus_one, 13 1 count"""))
    box["length_size_minus_one"] &= 3
    box["sequence_parameter_sets"], then = sets(row, 14, box.pop("count") & 0x1F)
    box["picture_parameter_sets"], _ = sets(row, then + 1, row.number(then, 1))
    return box


def child_of(row, offset, name, code=None, text=None):
    """Returns the header of the child at `offset` of a box with the name `name`. The child must not be larger than the
    box, and must have the code `code` if one is given."""
    child = Header(row.buffer, row.start + offset)
    check(child.size <= row.size, name + " box contains a box with a larger size than it")
    check(code in (None, child.name), text)
    return child


def visual(row, name, code, field):
    box = read_fields(row, FIXED["visual"])
    child = child_of(row, 86, name, code, field + " not found")
    box[field] = read_row(row.buffer, child)
    return box


def vp09(row):
    box = fixed(row, "vp09")
    child = child_of(row, 86, "vp09")
    box["vpcc"] = fixed(Row(row.buffer, child.start, child.size), "vpcC")
    return box


def stsd(row):
    box = read_fields(row, table("8 4 F, 12 4 -"))
    box.update(dict.fromkeys(SAMPLE_ENTRIES))
    if row.size > 16:
        child = child_of(row, 16, "stsd")
        if child.name in SAMPLE_ENTRIES:
            box[child.name] = read_row(row.buffer, child)
    return box


def mp4a(row):
    box = dict(fixed(row, "mp4a"), esds=None)
    if row.size > 36:
        child = child_of(row, 36, "mp4a")
        if child.name == "esds":
            box["esds"] = read_row(row.buffer, child)
    return box


class Descriptor:
    """The header of a descriptor at an offset of a row."""

    def __init__(self, row, offset):
        self.tag = row.number(offset, 1)
        length = 0
        for count in range(1, 5):
            byte = row.number(offset + count, 1)
            length = length * 128 + byte % 128
            if byte < 128:
                break
        self.content = offset + 1 + count
        self.end = self.content + length


def esds(row):
    box = dict(read_fields(row, FULL), es_desc=None)
    offset = 12
    while offset < row.size:
        descriptor = Descriptor(row, offset)
        if descriptor.tag != 3:
            break
        box["es_desc"], offset = elementary_stream(row, descriptor)
    check(box["es_desc"] is not None, "ESDescriptor not found")
    return box


def elementary_stream(row, within):
    """Reads `within`, a descriptor of tag 3. Returns its value and the offset after it."""
    value = {"es_id": row.number(within.content, 2), "sl_config": {}}
    row.piece(within.content + 2, 1)
    config = dict.fromkeys(["object_type_indication", "stream_type", "up_stream", "buffer_size_db", "max_bitrate"], 0)
    value["dec_config"] = dict(config, avg_bitrate=0, dec_specific=NO_SPECIFIC)
    offset = within.content + 3
    while offset < within.end:
        descriptor = Descriptor(row, offset)
        if descriptor.tag == 4:
            value["dec_config"], offset = decoder_config(row, descriptor)
        elif descriptor.tag == 6:
            row.piece(descriptor.content, 1)
            offset = descriptor.content + 1
        else:
            offset = descriptor.end
    return value, offset


NO_SPECIFIC = {"profile": 0, "freq_index": 0, "sample_rate": None, "chan_conf": 0}


def decoder_config(row, within):
    """Reads `within`, a descriptor of tag 4. Returns its value and the offset after it."""
    at = within.content
    value = {"object_type_indication": row.number(at, 1), "dec_specific": NO_SPECIFIC}
    bits = row.number(at + 1, 1)
    value.update(stream_type=bits >> 2, up_stream=bits & 2, buffer_size_db=row.number(at + 2, 3))
    value.update(max_bitrate=row.number(at + 5, 4), avg_bitrate=row.number(at + 9, 4))
    offset = at + 13
    while offset < within.end:
        descriptor = Descriptor(row, offset)
        if descriptor.tag == 5:
            value["dec_specific"], offset = decoder_specific(row, descriptor.content)
        else:
            offset = descriptor.end
    return value, offset


def decoder_specific(row, offset):
    """Reads the content of a descriptor of tag 5, which begins at `offset`. Returns its value and the offset after
    it."""
    bits = bin(0x10000 + row.number(offset, 2))[3:]
    long_type = bits[:5] == "11111"
    own_rate = bits[11:15] == "1111" if long_type else bits[5:9] == "1111"
    n = {(False, False): 2, (True, False): 3, (False, True): 5, (True, True): 6}[long_type, own_rate]
    bits = bin(256**n + row.number(offset, n))[3:]

    def taken(count):
        nonlocal bits
        front, bits = bits[:count], bits[count:]
        return int(front, 2)

    value = {"profile": taken(5)}
    if long_type:
        value["profile"] = 32 + taken(6)
    value["freq_index"] = taken(4)
    value["sample_rate"] = taken(24) if own_rate else None
    value["chan_conf"] = taken(4)
    return value, offset + n


READERS = {
    "ftyp": ftyp, "stsz": stsz, "tfhd": tfhd, "trun": trun, "hdlr": hdlr, "url ": url, "data": data, "emsg": emsg,
    "dref": dref, "dinf": dinf, "avcC": avcc, "vp09": vp09, "esds": esds, "mp4a": mp4a, "stsd": stsd,
    "avc1": lambda row: visual(row, "avc1", "avcC", "avcc"), "hev1": lambda row: visual(row, "hev1", "hvcC", "hvcc"),
}
READERS.update((name, partial(counted, name=name)) for name in TABLES)
READERS.update((name, partial(fixed, name=name)) for name in FIXED if name not in READERS and name != "visual")


def read_row(buffer, header):
    """Reads the box of `header`, whose name is known, with the reader of that name."""
    return READERS[header.name](Row(buffer, header.start, header.size))


def other(row, code):
    """Reads a box of a type without a table: its code `code`, and its bytes."""
    check(row.size >= 8, "box size too small")
    return {"code": code, "content": list(row.piece(8, row.size - 8))}


@lru_cache(64)
def outcome(buffer, name, start, size, more=False):
    """Returns the box with the name `name`, the size `size` and the offset `start`, or its first fault. The result is
    cached, since each box is read by itself and in a list."""
    try:
        row = Row(buffer, start, size)
        if more and name in MORE:
            return name.lower().strip(), extra_box(name, buffer[start + 8:], size - 8)
        if name in READERS:
            return name, READERS[name](row)
        return "other", other(row, int.from_bytes(name.encode("latin-1"), "big"))
    except Fault as fault:
        return fault


def read_box(buffer, position, keep=False):
    """Reads the box whose header is at `position`. Returns its name and value as a pair, or the first fault. Returns
    None instead for a name without a table, unless `keep` is set. Also returns the position of the cursor after the
    call."""
    return read_named(buffer, position, READERS, keep)


def read_more(buffer, position):
    """Reads a box of `MORE`, and returns what `read_box` returns."""
    return read_named(buffer, position, MORE, False)


def read_named(buffer, position, names, keep):
    """Reads a box with one of the names `names`, and returns what `read_box` returns."""
    try:
        header = Header(buffer, position)
    except Fault as fault:
        return fault, position
    if header.name not in names and not keep:
        return None, header.start + 8
    found = outcome(buffer, header.name, header.start, header.size, names is MORE)
    if isinstance(found, Fault):
        return found, header.start + 8
    size = 36 if header.name == "mp4a" and header.size < 36 else header.size
    return found, header.start + size


def places(buffer, position):
    """Returns the places of the boxes after `position`, a list of their offsets, whole lengths and printed codes, or
    the first fault. Also returns the position of the cursor after the call."""
    try:
        found = [(it.begin, it.start + it.size - it.begin, printed(it.code)) for it in headers(buffer, position)]
    except Fault as fault:
        return fault, position
    return found, max(position, len(buffer))


def printed(code):
    """Returns `code` as it is printed: its bytes as UTF-8, with U+FFFD for each piece that is not UTF-8."""
    return code.decode("utf-8", "replace")


def read_boxes(buffer, position, keep=False, more=False):
    """Reads the boxes that begin at `position`. Returns the list of their names and values, or the first fault. Also
    returns the position of the cursor after the call. Boxes whose name has no table are kept if `keep` is set, and
    skipped otherwise."""
    boxes = []
    try:
        for header in headers(buffer, position):
            if header.name in READERS or keep:
                found = outcome(buffer, header.name, header.start, header.size, more)
                if isinstance(found, Fault):
                    raise found
                boxes.append(found)
    except Fault as fault:
        return fault, position
    return boxes, max(position, len(buffer))
