"""The stored files of tests/files/texts."""

import glob
import os
import re

FILES = os.path.join(os.path.dirname(os.path.abspath(__file__)), "texts")


def stored_names():
    """Returns the names of the stored files."""
    return sorted(os.path.basename(path)[:-4] for path in glob.glob(os.path.join(FILES, "*.hex")))


def stored(name):
    """Returns the bytes of the stored file `name`, which is hexadecimal digits, texts between quotes, and comments."""
    with open(os.path.join(FILES, name + ".hex"), encoding="utf-8") as file:
        text = re.sub("#.*", "", file.read())
    pieces = re.findall(r"'[^']*'|\S+", text)
    return b"".join(piece[1:-1].encode() if piece[0] == "'" else bytes.fromhex(piece) for piece in pieces)
