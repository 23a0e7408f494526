"""Tries tools/package. The packages are made twice, in two checkouts of one commit, at other paths and under another
umask, time zone and locale: their bytes have to be the same.

- What each package contains, and that its version is that of VERSION, CHANGELOG.md, the header and the programs.
- The tarball is unpacked, its programs run, and C programs are compiled with its libraries.
- The Debian package passes lintian without errors and warnings.
- The wheel is installed into a virtual environment, used and removed.
- The file PROOF has the sums of the sources and programs.
- A release is made only after a gate that passed, from a commit with a date in CHANGELOG.md, and without the tag of
  another version. A run that fails names the reason and leaves nothing.

With TEST_LONG=1 both checkouts also compile what they pack. The Debian package is then installed, used and removed in a
clean root that debootstrap makes, which needs root and a mirror of Debian (TEST_MIRROR). In another one, a user who has
the packages and no clone runs the commands of the cookbook, and the example programs of each language.

The programs and the library are those of TEST_PROGRAMS and TEST_LIBRARY if they are set."""

import atexit
import base64
import functools
import hashlib
import os
import re
import shlex
import shutil
import subprocess
import sys
import tarfile
import tempfile
import unittest
import urllib.request
import venv
import zipfile

from tests.built import TOP, NamesSkipped, built, library, source
from tests.c.test_bindings import written_examples
from tests.c.test_examples import NAMES as EXAMPLES
from tests.files.stored import stored
from tests.programs import test_cookbook
from tests.repository.test_install import EXAMPLE, files_below, made_library

sys.path.insert(0, os.path.join(TOP, "tools"))
import building  # noqa: E402
import contents  # noqa: E402
import proof  # noqa: E402

VERSION = source("VERSION").strip()
MIRROR = os.environ.get("TEST_MIRROR") or "http://deb.debian.org/debian"
SUITE = "bookworm"
AUTHOR = {f"GIT_{who}_{what}": it for who in ("AUTHOR", "COMMITTER") for what, it in (
    ("NAME", "A"), ("EMAIL", "a@example.org"), ("DATE", "2026-01-02T03:04:05Z"))}
TIME = 1767323045
PROGRAMS = sorted(f"bin/{name}" for name, _ in building.PROGRAMS.values())
SHARED = f"libmp4_box_codec.so.{VERSION}"
CONFIGS = ("pkgconfig/mp4_box_codec.pc", "pkgconfig/mp4_box_codec-static.pc")
DOCUMENTS = "share/doc/mp4-box-codec"
# The packages of Debian that the commands of the cookbook need, and programs in each language.
TOOLS = [*test_cookbook.TOOLS.values(), "gcc", "g++", "libc6-dev", "pkg-config", "cargo", "python3-venv"]
# The library in a wheel, which is in the folder of the package for Python.
IN_WHEEL = f"mp4_box_codec/{building.SONAME}"
# A program instead of `rt`. Its gate prints the file `said` and ends with the status in the file `status`. It proves no
# library, and leaves one for C.
RT = """#!/bin/sh
case "$1" in
    doc) echo {kit}/START-HERE.md ;;
    ci) cat {work}/said; sh {work}/meanwhile; exit "$(cat {work}/status)" ;;
    lib) mkdir -p out; [ "${{PWD##*/}}" != mp4_c ] || cp {work}/one.a out/libmp4_c.a ;;
esac
"""


def succeeds(*words, **how):
    """Runs a command, which has to succeed, and returns its output."""
    ran = subprocess.run(words, stdout=subprocess.PIPE, stderr=subprocess.STDOUT, check=False, **how)
    if ran.returncode:
        raise AssertionError(f"{shlex.join(map(str, words))}: {ran.stdout.decode('utf-8', 'replace')}")
    return ran.stdout.decode("utf-8", "replace")


def text_of(*path):
    with open(os.path.join(*path), encoding="utf-8") as text:
        return text.read()


def write(path, text):
    with open(path, "w", encoding="utf-8") as file:
        file.write(text)


def sum_of(path):
    with open(path, "rb") as file:
        return hashlib.sha256(file.read()).hexdigest()


def commit(folder):
    env = {**os.environ, **AUTHOR}
    for words in (["add", "-A"], ["commit", "-q", "--no-verify", "-m", "All"]):
        succeeds("git", "-c", "core.autocrlf=false", *words, cwd=folder, env=env)


@functools.cache
def checkout():
    """Returns a repository with one commit of the files of this one, where CHANGELOG.md has a date."""
    work = tempfile.mkdtemp(prefix="package-")
    atexit.register(shutil.rmtree, work, ignore_errors=True)
    folder = os.path.join(work, "one")
    listed = succeeds("git", "ls-files", "-co", "--exclude-standard", "-z", cwd=TOP).split("\0")
    for name in filter(None, listed):
        to = os.path.join(folder, name)
        os.makedirs(os.path.dirname(to), exist_ok=True)
        if os.path.lexists(os.path.join(TOP, name)):
            shutil.copy(os.path.join(TOP, name), to, follow_symlinks=False)
    changes = re.sub(r"^(## \S+), .*$", r"\1, 2026-01-02", source("CHANGELOG.md"), count=1, flags=re.M)
    write(os.path.join(folder, "CHANGELOG.md"), changes)
    succeeds("git", "init", "-q", cwd=folder)
    commit(folder)
    return folder


def packed(top, to, *words, umask=0o022, **more):
    """Makes the packages of the checkout `top` without proof, and returns their folder."""
    succeeds(os.path.join(top, "tools", "package"), to, "--unproved", *words, env={**os.environ, **more},
             preexec_fn=lambda: os.umask(umask))
    return to


def packed_twice(work, *words):
    """Makes the packages in two checkouts, and returns their folders."""
    other = os.path.join(work, "another folder", "two")
    succeeds("git", "clone", "-q", checkout(), other)
    settings = {"TZ": "Asia/Tokyo", "LC_ALL": "C.UTF-8", "HOME": "/nonexistent", "TAR_OPTIONS": "--verbose"}
    return (packed(checkout(), os.path.join(work, "packages"), *words),
            packed(other, os.path.join(work, "again"), *words, umask=0o077, **settings))


class Working(NamesSkipped, unittest.TestCase):
    @classmethod
    def setUpClass(cls):
        cls.work = tempfile.mkdtemp(prefix="package-")
        cls.addClassCleanup(shutil.rmtree, cls.work, ignore_errors=True)

    def agree(self, folder, again):
        names = sorted(os.listdir(folder))
        self.assertEqual(names, sorted(os.listdir(again)))
        self.assertEqual(len(names), 4)
        for name in names:
            self.assertEqual(*(sum_of(os.path.join(it, name)) for it in (folder, again)), name)
        succeeds("sha256sum", "--check", "--strict", "SHA256SUMS", cwd=folder)


class Packages(Working):
    @classmethod
    def setUpClass(cls):
        super().setUpClass()
        given = os.path.join(cls.work, "built")
        os.mkdir(given)
        for name in building.PROGRAMS:
            shutil.copy(built(name), os.path.join(given, name))
        for name in ("libmp4_box_codec.a", building.SONAME, "mp4_box_codec.h"):
            shutil.copy(os.path.join(library(), name), given)
        cls.folder, cls.again = packed_twice(cls.work, "--built", given)
        [cls.tarball], [cls.debian], [cls.wheel] = (
            [os.path.join(cls.folder, it) for it in os.listdir(cls.folder) if it.endswith(ending)]
            for ending in (".tar.gz", ".deb", ".whl"))

    def unpacked(self):
        """Unpacks the tarball into a folder whose name has a space, and returns its folder."""
        to = tempfile.mkdtemp(dir=self.work, prefix="un packed-")
        succeeds("tar", "-xf", self.tarball, "-C", to)
        [top] = os.listdir(to)
        return os.path.join(to, top)

    def movie(self, folder):
        path = os.path.join(folder, "plain.mp4")
        with open(path, "wb") as file:
            file.write(stored("plain"))
        return path

    def use(self, program, folder):
        """Runs the programs over stored files in `folder`. `program` returns the words that run the program of a
        name."""
        self.movie(folder)
        self.assertIn(f" {VERSION}\n", succeeds(*program("mp4inspect"), "--version"))
        shown = succeeds(*program("mp4inspect"), "plain.mp4", cwd=folder)
        self.assertEqual(shown, source("tests", "files", "texts", "plain.txt"))
        with open(os.path.join(TOP, "crates", "mp4_boxes", "stdin"), "rb") as file:
            listed = succeeds(*program("mp4boxes"), "list", stdin=file)
        self.assertEqual(listed, "0 24 ftyp\n24 8 free\n32 20 stco\n")

    def documents(self):
        """Returns the files that only packages have, by their paths below the prefix."""
        tracked = lambda *paths: succeeds("git", "ls-files", *paths, cwd=checkout()).split()
        names = tracked("README.md", "CHANGELOG.md", "docs", "examples", ":!docs/man", ":!docs/completions")
        crate = [it.removeprefix("bindings/") for it in tracked("bindings/rust")]
        return [*(f"{DOCUMENTS}/{it}" for it in names), *(f"share/mp4-box-codec/{it}" for it in crate)]

    def test_two_builds_have_the_same_bytes(self):
        self.agree(self.folder, self.again)

    def test_versions_agree(self):
        names = {os.path.basename(it) for it in (self.tarball, self.debian, self.wheel)}
        tags = re.search(r"-py3-none-(.*)\.whl$", self.wheel)[1]
        self.assertEqual(names, {
            f"mp4-box-codec-{VERSION}+unproved-x86_64-linux.tar.gz", f"mp4-box-codec_{VERSION}~unproved_amd64.deb",
            f"mp4_box_codec-{VERSION}+unproved-py3-none-{tags}.whl"})
        self.assertEqual(re.search(r"^## ([^\s,]+)", source("CHANGELOG.md"), re.M)[1], VERSION)
        self.assertIn(f'#define MP4_VERSION "{VERSION}"\n', source("include", "mp4_box_codec.h"))
        top = self.unpacked()
        self.assertIn(f"\nVersion: {VERSION}\n", text_of(top, "lib", "pkgconfig", "mp4_box_codec.pc"))
        for page in os.listdir(os.path.join(top, "share", "man", "man1")):
            self.assertIn(f'"mp4-box-codec {VERSION}"', text_of(top, "share", "man", "man1", page))
        with zipfile.ZipFile(self.wheel) as archive:
            module = archive.read("mp4_box_codec/_library.py").decode()
        self.assertIn(f'\n__version__ = "{VERSION}"\n', module)

    def test_tarball(self):
        with tarfile.open(self.tarball) as archive:
            entries = archive.getmembers()
        owners = {(it.uid, it.gid, it.uname, it.gname, it.mtime) for it in entries}
        self.assertEqual(owners, {(0, 0, "root", "root", TIME)})
        for it in entries:
            is_run = it.isdir() or "/bin/" in it.name
            self.assertEqual(it.mode, 0o777 if it.issym() else 0o755 if is_run else 0o644, it.name)
        wanted = [*PROGRAMS, "include/mp4_box_codec.h", *self.documents()]
        wanted += [f"lib/{it}" for it in (
            "libmp4_box_codec.a", "libmp4_box_codec.so", building.SONAME, SHARED, *CONFIGS)]
        wanted += contents.pages()
        wanted += [f"{DOCUMENTS}/{it}" for it in ("LICENSE", "PROOF", "THIRD-PARTY")]
        top = os.path.basename(self.tarball)[:-len(".tar.gz")]
        found = [it.name.removeprefix(f"{top}/") for it in entries if not it.isdir()]
        self.assertEqual(sorted(found), sorted(wanted))

    def test_programs_of_the_tarball(self):
        top = self.unpacked()
        self.use(lambda name: [os.path.join(top, "bin", name)], self.work)

    def test_libraries_of_the_tarball(self):
        self.needs("pkg-config")
        top, work = self.unpacked(), tempfile.mkdtemp(dir=self.work)
        env = {**os.environ, "PKG_CONFIG_PATH": os.path.join(top, "lib", "pkgconfig")}
        write(os.path.join(work, "program.c"), EXAMPLE)
        succeeds("sh", "-c", 'eval "cc program.c $(pkg-config --cflags --libs mp4_box_codec)"', cwd=work, env=env)
        loaded = re.search(rf"{re.escape(building.SONAME)} => (.*) \(", succeeds("ldd", "a.out", cwd=work))[1]
        self.assertTrue(os.path.samefile(loaded, os.path.join(top, "lib", SHARED)), loaded)
        succeeds(os.path.join(work, "a.out"))
        command = 'eval "cc program.c $(pkg-config --cflags --libs mp4_box_codec-static) -o static"'
        succeeds("sh", "-c", command, cwd=work, env=env)
        self.assertNotIn(building.SONAME, succeeds("ldd", "static", cwd=work))
        succeeds(os.path.join(work, "static"))

    def test_crate_for_rust_of_the_tarball(self):
        self.takes_long()
        self.needs("cargo")
        self.needs("pkg-config")
        top, work = self.unpacked(), tempfile.mkdtemp(dir=self.work)
        os.mkdir(os.path.join(work, "src"))
        crate = os.path.join(top, "share", "mp4-box-codec", "rust")
        write(os.path.join(work, "Cargo.toml"), '[package]\nname = "it"\nversion = "1.0.0"\nedition = "2021"\n'
              f'[dependencies]\nmp4-box-codec = {{ path = "{crate}" }}\n')
        write(os.path.join(work, "src", "main.rs"), 'fn main() {\n    let file = std::fs::read("plain.mp4").unwrap();\n'
              '    println!("{}", mp4_box_codec::tree(&file).unwrap().iter().count());\n}\n')
        self.movie(work)
        env = {**os.environ, "PKG_CONFIG_PATH": os.path.join(top, "lib", "pkgconfig")}
        env.pop("MP4_BOX_CODEC_LIB_DIR", None)
        said = succeeds("cargo", "run", "--offline", "--quiet", cwd=work, env=env)
        self.assertEqual(said, f"{source('tests', 'files', 'texts', 'plain.txt').count('@')}\n")

    def test_programs_for_rust_of_the_tarball(self):
        folder = os.path.join(self.unpacked(), DOCUMENTS, "examples", "rust")
        crate = re.search(r'path = "(\.\..*)"', text_of(folder, "Cargo.toml"))[1]
        self.assertIn('name = "mp4-box-codec"\n', text_of(folder, crate, "Cargo.toml"))

    def test_debian_package(self):
        tree = tempfile.mkdtemp(dir=self.work)
        succeeds("dpkg-deb", "--raw-extract", self.debian, tree)
        wanted = [*PROGRAMS, "include/mp4_box_codec.h", *self.documents(), "share/lintian/overrides/mp4-box-codec"]
        wanted += [f"lib/x86_64-linux-gnu/{it}" for it in (
            "libmp4_box_codec.a", "libmp4_box_codec.so", building.SONAME, SHARED, *CONFIGS)]
        wanted += [f"{it}.gz" if "/man/" in it else it.replace("site-functions", "vendor-completions")
                   for it in contents.pages()]
        wanted += [f"{DOCUMENTS}/{it}" for it in ("PROOF", "changelog.gz", "copyright")]
        self.assertEqual(files_below(os.path.join(tree, "usr")), sorted(wanted))
        pages = os.path.join(tree, "usr", "share", "man", "man3")
        for page in os.listdir(pages):
            self.assertTrue(os.path.isfile(os.path.join(pages, page)), f"{page} is a link to a page that is not there")
        self.assertEqual(files_below(os.path.join(tree, "DEBIAN")), ["control", "md5sums", "shlibs", "triggers"])
        succeeds("md5sum", "--check", "--strict", "--quiet", "DEBIAN/md5sums", cwd=tree)
        listed = succeeds("dpkg-deb", "--contents", self.debian, env={**os.environ, "TZ": "UTC"})
        for line in listed.rstrip("\n").split("\n"):
            self.assertRegex(line, r"^\S+ root/root +\d+ 2026-01-02 03:04 \./")
        self.assertEqual(succeeds("dpkg-deb", "--field", self.debian, "Package", "Version", "Architecture"),
                         f"Package: mp4-box-codec\nVersion: {VERSION}~unproved\nArchitecture: amd64\n")

    def test_libraries_that_the_debian_package_needs(self):
        self.needs("dpkg-shlibdeps", "dpkg-dev")
        tree = tempfile.mkdtemp(dir=self.work)
        succeeds("dpkg-deb", "--extract", self.debian, os.path.join(tree, "it"))
        os.mkdir(os.path.join(tree, "debian"))
        write(os.path.join(tree, "debian", "control"), "Source: it\n\nPackage: it\nArchitecture: amd64\n")
        found = [os.path.join("it", "usr", it) for it in (*PROGRAMS, f"lib/x86_64-linux-gnu/{SHARED}")]
        said = succeeds("dpkg-shlibdeps", "-O", *found, cwd=tree)
        stated = succeeds("dpkg-deb", "--field", self.debian, "Depends").strip()
        self.assertIn(f"shlibs:Depends={stated}", said)

    def test_lintian(self):
        self.needs("lintian")
        ran = subprocess.run(["lintian", "--allow-root", "--no-tag-display-limit", self.debian],
                             capture_output=True, text=True, check=False)
        self.assertEqual([line for line in ran.stdout.split("\n") if line.startswith(("E:", "W:"))], [])
        self.assertEqual(ran.returncode, 0, ran.stderr)

    @classmethod
    def made_root(cls):
        """Makes a clean root of Debian once, and returns its folder."""
        root = os.path.join(cls.work, "root")
        if not os.path.isdir(root):
            succeeds("debootstrap", "--variant=minbase", SUITE, f"{root}-made", MIRROR)
            os.rename(f"{root}-made", root)
        return root

    def clean_root(self):
        """Returns the folder of a clean root of Debian, a copy for each test, and a function that runs a command in it
        as root."""
        self.takes_long()
        if os.geteuid():
            self.skipTest("debootstrap and chroot need root")
        self.needs("debootstrap")
        try:
            with urllib.request.urlopen(f"{MIRROR}/dists/{SUITE}/Release", timeout=30) as file:
                file.read(1)
        except OSError as why:
            self.skipTest(f"no mirror of Debian is reachable ({MIRROR}: {why}); TEST_MIRROR names another")
        root = os.path.join(self.work, self.id())
        succeeds("cp", "-a", self.made_root(), root)
        env = {"PATH": "/usr/sbin:/usr/bin:/sbin:/bin", "LC_ALL": "C", "DEBIAN_FRONTEND": "noninteractive"}
        return root, lambda *words, **how: succeeds("chroot", root, *words, env=env, **how)

    def test_debian_package_in_a_clean_root(self):
        root, inside = self.clean_root()
        own = re.compile(r"(var/(lib/(dpkg|apt)|cache|log)|etc/ld\.so\.cache|tmp|plain\.mp4)\b")
        present = lambda: [it for it in files_below(root) if not own.match(it)]
        before = present()
        shutil.copy(self.debian, os.path.join(root, "tmp"))
        inside("apt-get", "install", "-y", f"/tmp/{os.path.basename(self.debian)}")
        self.assertIn(building.SONAME, inside("ldconfig", "-p"))
        self.use(lambda name: ["chroot", root, name], root)
        checked = subprocess.run(["chroot", root, "mp4inspect", "check", "plain.mp4"], capture_output=True, check=False)
        found = [line.split()[0] for line in checked.stdout.splitlines()]
        self.assertEqual((checked.returncode, found), (1, [b"284", b"728"]))
        inside("apt-get", "purge", "-y", "mp4-box-codec")
        self.assertEqual(present(), before)
        self.assertNotIn(building.SONAME, inside("ldconfig", "-p"))

    def user(self):
        """Installs the packages in a clean root. Returns the folder of a user in it, and a function that runs a command
        as this user and returns its output and status."""
        root, inside = self.clean_root()
        shutil.copy(self.debian, os.path.join(root, "tmp"))
        inside("apt-get", "install", "-y", "--no-install-recommends", f"/tmp/{os.path.basename(self.debian)}", *TOOLS)
        inside("useradd", "--create-home", "--uid", "1000", "user")
        home = os.path.join(root, "home", "user")
        for path in (self.wheel, *(os.path.join(test_cookbook.MOVIES, it) for it in test_cookbook.NAMES)):
            shutil.copy(path, home)
        succeeds("chown", "-R", "1000:1000", home)
        succeeds("mount", "-t", "proc", "proc", os.path.join(root, "proc"))
        self.addCleanup(succeeds, "umount", os.path.join(root, "proc"))
        env = {"PATH": "/usr/bin:/bin", "HOME": "/home/user", "LC_ALL": "C.UTF-8"}

        def run(command):
            words = [shutil.which("chroot"), "--userspec=1000:1000", root, "bash", "-c", f"cd && {command}"]
            ran = subprocess.run(words, env=env, stdin=subprocess.DEVNULL, stdout=subprocess.PIPE,
                                 stderr=subprocess.STDOUT, check=False)
            return ran.stdout.decode(), ran.returncode

        return home, run

    def test_users_without_a_clone(self):
        home, run = self.user()

        def runs(command):
            said, status = run(command)
            self.assertEqual(status, 0, f"{command}: {said}")
            return said

        page = source("docs", "COOKBOOK.md")
        os.mkdir(os.path.join(home, "films"))
        os.chown(os.path.join(home, "films"), 1000, 1000)
        runs(f"cp {' '.join(test_cookbook.NAMES)} films")
        found = test_cookbook.printed(page, lambda command: run(f"cd films && {command}"))
        self.assertEqual(page.split("\n"), found.split("\n"))
        self.check_programs(home, runs)

    def check_programs(self, home, runs):
        """Compiles and runs the programs of the package in C, C++, Rust and Python. `runs` runs a command, which has to
        succeed, and returns its output."""
        folder = f"/usr/{DOCUMENTS}/examples"
        flags = "$(pkg-config --cflags --libs mp4_box_codec) -lm"
        for name in EXAMPLES:
            runs(f"mkdir -p c && cc {folder}/c/{name}.c {flags} -o c/{name}")
        runs(f"c++ -std=c++17 {folder}/cpp/boxes.cpp {flags} -o boxes")
        self.assertIn("moov/trak[0]: 20 samples of 1024\n", runs("./boxes phone.mp4"))
        runs(f"cargo build --offline --quiet --manifest-path {folder}/rust/Cargo.toml --target-dir rust")
        runs(f"python3 -m venv python && python/bin/pip install --no-index {os.path.basename(self.wheel)}")
        for programs in ("c", "rust/debug"):
            self.assertEqual(runs(f"{programs}/tracks phone.mp4"), (
                "track 1: video, avc1.64000a, deu, 64 x 48, 2.000 s, 20 samples\n"
                "track 2: audio, mp4a.40.2, deu, 0 x 0, 2.000 s, 17 samples\n"))
            runs(f"{programs}/elementary phone.mp4 1 stream && {programs}/mux stream 64 48 10 muxed.mp4")
            self.assertIn("avc1.64000a  64x48  10 fps  2.000 s", runs("mp4inspect info muxed.mp4"))
            runs(f"{programs}/edit phone.mp4 1 fra edited.mp4")
            self.assertEqual(runs("mp4inspect get --field language edited.mp4 moov/trak/mdia/mdhd"), "fra\n")
            self.assertEqual(runs(f"{programs}/playlist dash.mp4 1").count("#EXTINF:1.0"), 3)
        python = lambda name, *words: runs(f"python/bin/python {folder}/python/{name}.py {' '.join(words)}")
        self.assertIn("phone.mp4: track 1: video, avc1.64000a, deu, 2 s, 20 samples", python("tracks", "phone.mp4"))
        python("stream", "phone.mp4", "units")
        runs("cmp stream units")
        python("edit", "phone.mp4", "turned.mp4", "fra", "180")
        self.assertIn("64x48 rotated 180  10 fps  2.000 s  7 kb/s  fra", runs("mp4inspect info turned.mp4"))
        python("mux", "both.mp4", "phone.mp4", "song.m4a")
        self.assertIn("2 audio  mp4a.40.2", runs("mp4inspect info both.mp4"))
        self.assertEqual(python("playlist", "dash.mp4", "dash.mp4").count("#EXTINF:1.000,"), 3)
        runs("mp4inspect check phone.mp4 muxed.mp4 edited.mp4 turned.mp4 both.mp4")

    def test_wheel(self):
        with zipfile.ZipFile(self.wheel) as archive:
            self.assertIsNone(archive.testzip())
            entries = {it.filename: (it, archive.read(it)) for it in archive.infolist()}
        info = f"mp4_box_codec-{VERSION}+unproved.dist-info"
        names = [*entries]
        self.assertEqual(names[-1], f"{info}/RECORD")
        self.assertEqual({it.date_time for it, _ in entries.values()}, {(2026, 1, 2, 3, 4, 4)})
        modules = [it for it in files_below(os.path.join(checkout(), "bindings", "python"))
                   if it.startswith("mp4_box_codec/")]
        self.assertLess({f"mp4_box_codec/{it}" for it in ("__init__.py", "calls.py", "py.typed")}, {*modules})
        wanted = [IN_WHEEL, *modules]
        wanted += [f"{info}/{it}" for it in ("LICENSE", "METADATA", "PROOF", "RECORD", "THIRD-PARTY", "WHEEL")]
        self.assertEqual(sorted(names), sorted(wanted))
        rows = dict(line.split(",", 1) for line in entries[f"{info}/RECORD"][1].decode().strip().split("\n"))
        self.assertEqual(rows.pop(f"{info}/RECORD"), ",")
        self.assertEqual(sorted(rows), sorted(names[:-1]))
        for name, row in rows.items():
            digest = base64.urlsafe_b64encode(hashlib.sha256(entries[name][1]).digest()).decode().rstrip("=")
            self.assertEqual(row, f"sha256={digest},{len(entries[name][1])}", name)
        for name in modules:
            self.assertEqual(entries[name][1].decode(), source("bindings", "python", name))
        tags = re.search(r"-py3-none-(.*)\.whl$", self.wheel)[1].split(".")
        stated = re.findall(r"^Tag: (.*)$", entries[f"{info}/WHEEL"][1].decode(), re.M)
        self.assertEqual(stated, [f"py3-none-{it}" for it in tags])
        metadata = entries[f"{info}/METADATA"][1].decode()
        for line in ("Name: mp4-box-codec", f"Version: {VERSION}+unproved", "Requires-Python: >=3.8", "License: MIT"):
            self.assertIn(f"\n{line}\n", metadata)

    def test_system_of_the_wheel(self):
        # A tag manylinux_2_N says that the library needs nothing except a C library of version 2.N.
        with zipfile.ZipFile(self.wheel) as archive:
            path = archive.extract(IN_WHEEL, tempfile.mkdtemp(dir=self.work))
        limit, said = re.search(r"manylinux_2_(\d+)_x86_64", self.wheel), succeeds("readelf", "-dVnW", path)
        versions = {int(it) for it in re.findall(r"Name: GLIBC_2\.(\d+)", said)}
        self.assertLessEqual(max(versions, default=0), int(limit[1]))
        needed = set(re.findall(r"\(NEEDED\).*\[(.*)\]", said))
        self.assertLessEqual(needed, {"libc.so.6", "ld-linux-x86-64.so.2"})
        self.assertNotRegex(said, r"x86 ISA needed: .*x86-64-v[2-4]")
        self.assertIn(f"[{building.SONAME}]", said)

    def test_wheel_in_a_virtual_environment(self):
        place = tempfile.mkdtemp(dir=self.work)
        try:
            venv.create(place, with_pip=True)
        except subprocess.CalledProcessError:
            self.skipTest("this Python makes no virtual environments with pip (apt-get install python3-venv)")
        python, before = os.path.join(place, "bin", "python"), files_below(place)
        env = {name: it for name, it in os.environ.items() if name != "MP4_BOX_CODEC_LIB"}
        env |= {"PYTHONDONTWRITEBYTECODE": "1", "PIP_DISABLE_PIP_VERSION_CHECK": "1", "PIP_ROOT_USER_ACTION": "ignore"}
        run = lambda *words, cwd=self.work: succeeds(python, *words, env=env, cwd=cwd)
        run("-m", "pip", "install", "--no-index", "--no-compile", self.wheel)
        program = ("import sys, mp4_box_codec\n"
                   "print(mp4_box_codec.calls._library._name)\nprint(mp4_box_codec.__version__)\n"
                   "with mp4_box_codec.File(sys.argv[1]) as file:\n    print(*(it.path for it in file.walk()))\n")
        path, version, boxes = run("-c", program, self.movie(self.work)).rstrip("\n").split("\n")
        self.assertTrue(path.startswith(place) and path.endswith(f"/{IN_WHEEL}"), path)
        self.assertEqual(version, VERSION)
        self.assertEqual(boxes.split()[:3], ["ftyp", "moov", "moov/mvhd"])
        run("-m", "doctest", "-o", "ELLIPSIS", written_examples(self.work), cwd=TOP)
        run("-m", "pip", "uninstall", "-y", "mp4-box-codec")
        self.assertEqual([it for it in files_below(place) if it not in before and "__pycache__" not in it], [])

    def test_proof(self):
        top = self.unpacked()
        text = text_of(top, DOCUMENTS, "PROOF")
        with zipfile.ZipFile(self.wheel) as archive:
            info = f"mp4_box_codec-{VERSION}+unproved.dist-info"
            self.assertEqual(archive.read(f"{info}/PROOF").decode(), text)
            shared = hashlib.sha256(archive.read(IN_WHEEL)).hexdigest()
        self.assertTrue(text.startswith("NOTHING WAS PROVED\n"))
        self.assertNotIn("Proved: ", text)
        name = succeeds("git", "rev-parse", "HEAD", cwd=checkout()).strip()
        self.assertIn(f"\nCommit: {name} of 2026-01-02T03:04:05Z\n", text)
        sums = {path: it for it, path in re.findall(r"^  ([0-9a-f]{64})  (.*)$", text, re.M)}
        self.assertEqual(sums[f"lib/{SHARED}"], shared)
        for path in (*PROGRAMS, f"lib/{SHARED}", "lib/libmp4_box_codec.a", "include/mp4_box_codec.h"):
            self.assertEqual(sums.pop(path), sum_of(os.path.join(top, path)), path)
        command = re.search(r"^  (git ls-files .*)$", text, re.M)[1]
        self.assertTrue({f"crates/{it}" for it in building.read_crates()} < set(sums))
        for path in ("crates/mp4_frame", "include", "crates.txt"):
            said = succeeds("sh", "-c", command.replace("PATH", path), cwd=checkout())
            self.assertEqual(said.split()[0], sums[path], path)

    def test_licences(self):
        said = text_of(self.unpacked(), DOCUMENTS, "THIRD-PARTY")
        self.assertIn("Alfred Gutierrez", said)
        named = {it for line in re.findall(r"^## Libraries of the Rattle kit: (.*)$", said, re.M)
                 for it in line.split(", ")}
        home = building.kit()
        for name in building.kit_libraries(home, [*building.PROGRAMS, building.C_CRATE]):
            has_licence = any(it.startswith("LICENSE") for it in os.listdir(os.path.join(home, "rattle", name)))
            self.assertEqual(name in named, has_licence, name)

    def test_folder_without_a_program(self):
        to, given = os.path.join(self.work, "none"), tempfile.mkdtemp(dir=self.work)
        words = [os.path.join(checkout(), "tools", "package"), to, "--unproved", "--built", given]
        ran = subprocess.run(words, capture_output=True, text=True, check=False)
        self.assertEqual(ran.returncode, 1)
        self.assertIn(f"package: {given} lacks mp4_boxes, which --built needs", ran.stderr)
        self.assertFalse(os.path.exists(to))


class Compiled(Working):
    def test_two_builds_that_compile_have_the_same_bytes(self):
        self.takes_long()
        self.agree(*packed_twice(self.work))


class Release(Working):
    """Makes the packages of a release with the output of a gate that is made here. The library has one function, and
    the programs are `true`."""

    @classmethod
    def setUpClass(cls):
        super().setUpClass()
        cls.top, cls.kit = os.path.join(cls.work, "repository"), building.kit()
        succeeds("git", "clone", "-q", checkout(), cls.top)
        made_library(cls.work)
        cls.bin = os.path.join(cls.work, "bin")
        os.mkdir(cls.bin)
        rt = os.path.join(cls.bin, "rt")
        write(rt, RT.format(work=cls.work, kit=cls.kit))
        os.chmod(rt, 0o755)
        cls.env = {**os.environ, "PATH": f"{cls.bin}:{os.environ['PATH']}"}
        for name in building.PROGRAMS:
            os.makedirs(os.path.join(cls.top, "crates", name, "out"))
            shutil.copy(shutil.which("true"), os.path.join(cls.top, "crates", name, "out", name))

    def setUp(self):
        self.folder, self.temporary = (os.path.join(self.work, f"{self.id()}{it}") for it in ("", "-temporary"))
        os.mkdir(self.temporary)
        self.count = len(building.read_crates()) + len(proof.wrong_bodies())

    def package(self, *words, last=None, status=0, meanwhile="", **more):
        """Runs tools/package with a gate that ends with the line `last` and `status`. Returns its status and output."""
        last = last or f"{self.count} passed, 0 failed"
        for name, text in {"said": f"rt: ok\n{last}\n", "status": f"{status}\n", "meanwhile": meanwhile}.items():
            write(os.path.join(self.work, name), text)
        words = [os.path.join(self.top, "tools", "package"), self.folder, *words]
        env = {**self.env, "TMPDIR": self.temporary, **more}
        ran = subprocess.run(words, env=env, stdout=subprocess.PIPE, stderr=subprocess.STDOUT, check=False)
        self.assertEqual(os.listdir(self.temporary), [])
        return ran.returncode, ran.stdout.decode("utf-8", "replace")

    def refuses(self, text, **how):
        status, said = self.package(**how)
        self.assertEqual((status, text in said), (1, True), said)
        self.assertFalse(os.path.exists(self.folder))

    def test_release(self):
        status, said = self.package()
        self.assertEqual(status, 0, said)
        wheel = next(it for it in os.listdir(self.folder) if it.endswith(".whl"))
        self.assertEqual(sorted(os.listdir(self.folder)), [
            "SHA256SUMS", f"mp4-box-codec-{VERSION}-x86_64-linux.tar.gz", f"mp4-box-codec_{VERSION}_amd64.deb", wheel])
        with zipfile.ZipFile(os.path.join(self.folder, wheel)) as archive:
            text = archive.read(f"mp4_box_codec-{VERSION}.dist-info/PROOF").decode()
        crates, edits = building.read_crates(), proof.wrong_bodies()
        self.assertIn(f"\nProved: {len(crates)} crates\n", text)
        self.assertIn(f"\nRefused: {len(edits)} wrong bodies\n", text)
        for line in (*crates, *(f"{name}: {does}" for name, does in edits.items())):
            self.assertIn(f"\n  {line}\n", text)
        self.assertIn(f"\n  {text_of(self.kit, 'KIT-ID').strip()}\n", text)
        self.assertNotIn("NOTHING WAS PROVED", text)

    def test_gate_that_did_not_pass(self):
        self.refuses("the gate did not pass", status=1)
        for last in (f"{self.count - 1} passed, 1 failed", f"{self.count - 1} passed, 0 failed",
                     f"{self.count} passed, 0 failed (mp4_c and the crates below alone: not the gate)"):
            self.refuses(f"the gate did not pass: it ends with `{last}`", last=last)

    def test_library_that_is_not_proved(self):
        os.rename(os.path.join(self.work, "one.a"), os.path.join(self.work, "two.a"))
        self.addCleanup(os.rename, os.path.join(self.work, "two.a"), os.path.join(self.work, "one.a"))
        self.refuses("mp4_c failed with status 1; ")

    def test_changes_that_are_not_committed(self):
        path = os.path.join(self.top, "crates", "mp4_frame", "more")
        self.refuses("has changes, such as crates/mp4_frame/more", meanwhile=f"echo more > {path}")
        self.refuses("has changes, such as crates/mp4_frame/more")
        os.remove(path)

    def test_changes_without_a_date(self):
        head = succeeds("git", "rev-parse", "HEAD", cwd=self.top).strip()
        self.addCleanup(succeeds, "git", "reset", "-q", "--hard", head, cwd=self.top)
        path = os.path.join(self.top, "CHANGELOG.md")
        for line in (f"## {VERSION}, not released", "## 9.9.9, 2026-01-02"):
            write(path, f"# Changelog\n\n{line}\n")
            commit(self.top)
            self.refuses(f"CHANGELOG.md has to begin with `## {VERSION}, YEAR-MONTH-DAY`")

    def test_tag_of_another_version(self):
        succeeds("git", "tag", "v9.9.9", cwd=self.top)
        self.addCleanup(succeeds, "git", "tag", "-d", "v9.9.9", cwd=self.top)
        self.refuses("the commit has the tag v9.9.9")

    def test_tag_at_another_commit(self):
        succeeds("git", "commit", "-q", "--allow-empty", "-m", "More", cwd=self.top, env={**os.environ, **AUTHOR})
        succeeds("git", "tag", f"v{VERSION}", cwd=self.top)
        succeeds("git", "reset", "-q", "--hard", "HEAD^", cwd=self.top)
        self.addCleanup(succeeds, "git", "tag", "-d", f"v{VERSION}", cwd=self.top)
        self.refuses(f"the tag v{VERSION} is at another commit")

    def test_missing_tool(self):
        for name in ("env", "python3", "sh"):
            os.symlink(shutil.which(name), os.path.join(self.bin, name))
            self.addCleanup(os.remove, os.path.join(self.bin, name))
        self.refuses("`git` is not there: packages need git, tar, gzip", PATH=self.bin)

    def test_built_files_of_a_release(self):
        status, said = self.package("--built", self.work)
        self.assertEqual((status, "--built needs --unproved" in said), (2, True), said)


if __name__ == "__main__":
    unittest.main()
