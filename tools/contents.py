"""The files of an installation: tools/install writes them below a prefix, and tools/package packs them."""
import os
import re

import building

# Prefixes in which the system looks for libraries by itself.
SYSTEM = ("/usr", "/usr/local")
CONFIG = """prefix={prefix}
libdir=${{prefix}}/{folder}
includedir=${{prefix}}/include

Name: mp4-box-codec
Description: The boxes of MP4 files, read and written exactly{note}
Version: {version}
Libs: {libs}
Cflags: -I${{includedir}}
"""
# The folders of completions below a prefix, by the endings of their files in docs/completions. A file without an ending
# is for zsh.
COMPLETIONS = {
    ".bash": "share/bash-completion/completions", ".fish": "share/fish/vendor_completions.d",
    "": "share/zsh/site-functions",
}


def version():
    """Returns the version of the repository."""
    with open(os.path.join(building.TOP, "VERSION"), encoding="utf-8") as text:
        return text.read().strip()


def escaped(prefix):
    """Returns `prefix` as text of a pkg-config file. Characters that are special to the shell are escaped, since
    pkg-config splits flags as the shell splits words."""
    return re.sub(r"([\s\"'\\#&;<>|*?`{}])", r"\\\1", prefix)


def configs(prefix, folder="lib", is_searched=False, is_proved=True):
    """Returns the texts of the pkg-config files of an installation by their names: one for the library that the linker
    finds, and one for the static library, which needs nothing else. `prefix` is the prefix as text of these files, and
    `folder` that of the libraries below it. A program finds the shared library by itself if the system searches the
    folder (`is_searched`)."""
    search, library = "" if is_searched else "-Wl,-rpath,${libdir} ", building.LIBRARY
    note = "" if is_proved else " (this build is not proved)"
    linked = {"": f"-L${{libdir}} {search}-l{library}", "-static": f"${{libdir}}/lib{library}.a"}
    return {f"{library}{kind}.pc": CONFIG.format(prefix=prefix, folder=folder, note=note, version=version(), libs=libs)
            for kind, libs in linked.items()}


def functions_of(page):
    """Returns the functions that the man page `page` describes: the names of its first section."""
    return re.findall(r"\w+", re.search(r"^\.SH NAME\n(.*?)\\-", page, re.M | re.S)[1])


def pages():
    """Returns the man pages and the completions for shells by their paths below a prefix, each with its content and its
    mode as `parts` does. The name of each function is a link to the page that describes it."""
    documents, found = os.path.join(building.TOP, "docs"), {}
    for page in sorted(os.listdir(os.path.join(documents, "man"))):
        with open(os.path.join(documents, "man", page), encoding="utf-8") as file:
            text, folder = file.read().replace("@VERSION@", version()), f"share/man/man{page[-1]}"
        found.update((f"{folder}/{name}.{page[-1]}", (page, None)) for name in functions_of(text))
        found[f"{folder}/{page}"] = (text.encode(), 0o644)
    for name in sorted(os.listdir(os.path.join(documents, "completions"))):
        stem, ending = os.path.splitext(name)
        with open(os.path.join(documents, "completions", name), "rb") as text:
            found[f"{COMPLETIONS[ending]}/{stem if ending == '.bash' else name}"] = (text.read(), 0o644)
    return found


def parts(built, configurations, folder="lib"):
    """Returns the files of an installation by their paths below the prefix, each with its content and its mode.
    The content is the path of a file to copy, or the bytes themselves. The content of a link is its target, and its
    mode is None. `built` is the folder of the programs and libraries, `configurations` has the texts of the pkg-config
    files by their names, and `folder` is that of the libraries below the prefix."""
    library, whole = building.LIBRARY, f"{building.SONAME}.{version().partition('.')[2]}"
    found = {f"bin/{name}": (os.path.join(built, crate), 0o755) for crate, (name, _) in building.PROGRAMS.items()}
    found[f"{folder}/lib{library}.a"] = (os.path.join(built, f"lib{library}.a"), 0o644)
    found[f"{folder}/{whole}"] = (os.path.join(built, building.SONAME), 0o644)
    found[f"{folder}/{building.SONAME}"] = (whole, None)
    found[f"{folder}/lib{library}.so"] = (building.SONAME, None)
    found[f"include/{library}.h"] = (os.path.join(built, f"{library}.h"), 0o644)
    found.update((f"{folder}/pkgconfig/{name}", (text.encode(), 0o644)) for name, text in configurations.items())
    return {**found, **pages()}
