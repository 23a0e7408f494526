"""Finds and loads libmp4_box_codec.

The package takes the first library that has its version:

1. the file that the variable MP4_BOX_CODEC_LIB names: then no other is tried;
2. the file in the folder of the package, which a wheel has;
3. the folder that pkg-config names;
4. the folder that the variable MP4_BOX_CODEC_LIB_DIR names;
5. `lib` in Python's own prefix, `~/.local` and `/usr/local`, and the folders of the system.
"""

import ctypes
import ctypes.util
import os
import shlex
import subprocess
import sys
from typing import Iterator, Optional

__version__ = "0.1.0"
FILE = "libmp4_box_codec.so.0"
REMEDY = f"install the wheel, run tools/install, or set MP4_BOX_CODEC_LIB to the path of {FILE}"


def _configured() -> Optional[str]:
    """Returns the folder of the library that pkg-config names."""
    words, env = ["pkg-config", "--libs-only-L", "mp4_box_codec"], {**os.environ, "PKG_CONFIG_ALLOW_SYSTEM_LIBS": "1"}
    try:
        ran = subprocess.run(words, env=env, stdout=subprocess.PIPE, stderr=subprocess.DEVNULL, check=False, timeout=10)
        said = shlex.split(os.fsdecode(ran.stdout))
    except (OSError, ValueError, subprocess.SubprocessError):
        return None
    return next((it[2:] for it in said if it.startswith("-L")), None)


def places() -> Iterator[str]:
    """Yields the files of the libraries that are present, in the order in which they are tried."""
    given = os.environ.get("MP4_BOX_CODEC_LIB")
    if given:
        yield given
        return
    own = os.path.join(os.path.dirname(os.path.abspath(__file__)), FILE)
    if os.path.exists(own):
        yield own
    folders = [_configured(), os.environ.get("MP4_BOX_CODEC_LIB_DIR")]
    folders += [os.path.join(it, "lib") for it in (sys.prefix, os.path.expanduser("~/.local"), "/usr/local")]
    for folder in folders:
        path = os.path.join(folder, FILE) if folder else ""
        if path and os.path.exists(path):
            yield path
    yield ctypes.util.find_library("mp4_box_codec") or FILE


def is_for(version: int, module: str) -> bool:
    """Returns whether a library of the version `version` has the calls that a module of the version `module` expects.
    Before 1.0.0 a minor version may change them, so the major and the minor version have to be equal."""
    return f"{version // 1000000}.{version // 1000 % 1000}" == module.rpartition(".")[0]


def _refused(path: str) -> str:
    """Returns why the library at `path` can't be used, or an empty text if it can."""
    try:
        library = ctypes.CDLL(path)
        library.mp4_version.argtypes, library.mp4_version.restype = (), ctypes.c_uint32
    except (OSError, AttributeError) as why:
        return f"{path} can't be loaded ({why})"
    found = int(library.mp4_version())
    if is_for(found, __version__):
        return ""
    text = f"{found // 1000000}.{found // 1000 % 1000}.{found % 1000}"
    return f"{path} is version {text}, and this module needs version {__version__.rpartition('.')[0]}.x"


def load() -> ctypes.CDLL:
    """Loads the first library that can be used. If there is none, the ImportError says why for each that was tried."""
    refused = []
    for path in places():
        why = _refused(path)
        if not why:
            return ctypes.CDLL(path)
        refused.append(why)
    raise ImportError(f"{'; '.join(refused)}: {REMEDY}")
