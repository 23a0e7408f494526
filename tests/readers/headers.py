"""Headers of boxes, and the walk over the boxes of a buffer. The slow readers share them. Only samples.py has its own
walk: it is a second computation by the standard, which shares no line with the others."""


class Fault(Exception):
    """The first fault: `End`, `Invalid` with its text, or `NotFound` with the name of the missing child."""


def check(holds, text):
    if not holds:
        raise Fault("Invalid", text)


class Header:
    """A header at a position of a buffer: the code, the position of the header, and the start and the size of the
    box."""

    def __init__(self, buffer, position):
        if position + 8 > len(buffer):
            raise Fault("End")
        self.size = int.from_bytes(buffer[position:position + 4], "big")
        self.code = buffer[position + 4:position + 8]
        self.begin = self.start = position
        if self.size == 1:
            if position + 16 > len(buffer):
                raise Fault("End")
            large = int.from_bytes(buffer[position + 8:position + 16], "big")
            check(large == 0 or large >= 16, "64-bit box size too small")
            self.size = max(large - 8, 0)
            self.start = position + 8
        self.name = self.code.decode("latin-1")


def sized(header, buffer):
    """Returns the size of the box of `header`, from its start, as part of a list of boxes. A size of 0 means up to the
    end of `buffer`. The box has to be whole."""
    if header.size == 0:
        return len(buffer) - header.start
    check(header.size >= 8, "box size too small")
    check(header.start + header.size <= 2**64 - 1, "box end past 64 bits")
    if header.start + header.size > len(buffer):
        raise Fault("End")
    return header.size


def headers(buffer, position):
    """Yields the headers of the boxes of `buffer` that begin at `position`, each with the size of its box, up to a
    fault."""
    while position < len(buffer):
        header = Header(buffer, position)
        header.is_short = header.start == header.begin and header.size > 0
        header.size = sized(header, buffer)
        yield header
        position = header.start + header.size
