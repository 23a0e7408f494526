"""Strings, and bytes that are not UTF-8."""

# Characters of one to four bytes: the first and the last of each length, and those beside the surrogates.
CHARACTERS = [
    (b"a", "a"),
    (b"\x7f", "\x7f"),
    (b"\xc2\x80", "\x80"),
    (b"\xdf\xbf", "\u07ff"),
    (b"\xe0\xa0\x80", "\u0800"),
    (b"\xed\x9f\xbf", "\ud7ff"),
    (b"\xee\x80\x80", "\ue000"),
    (b"\xef\xbf\xbf", "\uffff"),
    (b"\xf0\x90\x80\x80", "\U00010000"),
    (b"\xf4\x8f\xbf\xbf", "\U0010ffff"),
    (b"\xc3\xa9\xe2\x82\xac\xf0\x90\x8d\x88", "\u00e9\u20ac\U00010348"),
]

# Continuations without a start, overlong forms, surrogates, numbers past U+10FFFF, bytes that UTF-8 never has, and
# sequences that are cut by the end or by a letter.
OTHER_BYTES = [
    b"\x80", b"\xbf", b"a\xbf", b"\xc0\x80", b"\xc1\xbf", b"\xe0\x9f\xbf", b"\xf0\x8f\xbf\xbf", b"\xed\xa0\x80",
    b"\xed\xbf\xbf", b"\xf4\x90\x80\x80", b"\xf5\x80\x80\x80", b"\xfe", b"\xff", b"\xc3", b"\xe2\x82",
    b"\xf0\x90\x8d", b"\xc3a", b"\xf0\x90\x8da",
]
