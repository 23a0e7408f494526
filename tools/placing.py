"""Writes the files of an installation below a prefix, and keeps a list of them for tools/uninstall."""
import contextlib
import fcntl
import glob
import os
import shutil
import tempfile

# The list of the files that installs have written below the prefix. Each line is a path.
LISTED = os.path.join("share", "mp4-box-codec", "installed")


def prefix_of(text):
    """Returns the absolute path of the prefix that `text` names."""
    return os.path.abspath(os.path.expanduser(text))


def root_of(prefix):
    """Returns the folder for the files of `prefix`, which is below DESTDIR if that is set in the environment."""
    stage = os.environ.get("DESTDIR")
    return os.path.join(os.path.abspath(stage), prefix.lstrip("/")) if stage else prefix


def listed(root):
    """Returns the paths below `root` of the files that installs have written."""
    try:
        with open(os.path.join(root, LISTED), encoding="utf-8") as lines:
            return [it for it in lines.read().split("\n") if it]
    except FileNotFoundError:
        return []


def foreign(root, paths):
    """Returns the `paths` below `root` that are present and that no install has written."""
    ours = {LISTED, *listed(root)}
    return [it for it in paths if it not in ours and os.path.lexists(os.path.join(root, it))]


@contextlib.contextmanager
def alone_in(folder):
    """Waits until no other install or uninstall works in `folder`, and keeps others out of it in the `with` block."""
    held = os.open(folder, os.O_RDONLY | os.O_DIRECTORY)
    try:
        try:
            fcntl.flock(held, fcntl.LOCK_EX | fcntl.LOCK_NB)
        except BlockingIOError:
            print(f"Another install is at work in {folder}: this one waits for it.", flush=True)
            fcntl.flock(held, fcntl.LOCK_EX)
        yield
    finally:
        os.close(held)


def make_folder(path):
    """Makes the folder `path` and the missing folders above it. Everyone can read them, whatever the umask is."""
    if os.path.isdir(path):
        return
    make_folder(os.path.dirname(path))
    try:
        os.mkdir(path)
    except FileExistsError:
        if not os.path.isdir(path):
            raise
        return
    os.chmod(path, 0o755)


def put(path, what, mode):
    """Writes a file with the bytes `what` to `path`, or makes a link to `what` if `mode` is None. The file is written
    under a temporary name and then renamed, so that `path` never has a part of it."""
    folder, name = os.path.split(path)
    make_folder(folder)
    work = tempfile.mkdtemp(dir=folder, prefix=f".{name}.", suffix=".new")
    try:
        new = os.path.join(work, name)
        if mode is None:
            os.symlink(what, new)
        else:
            with open(new, "wb") as file:
                file.write(what)
            os.chmod(new, mode)
        os.replace(new, path)
    finally:
        shutil.rmtree(work, ignore_errors=True)


def put_all(root, found):
    """Writes files below `root`. `found` has them as `contents.parts` returns them."""
    for path, (what, mode) in found.items():
        if mode is not None and isinstance(what, str):
            with open(what, "rb") as file:
                what = file.read()
        put(os.path.join(root, path), what, mode)


def left_behind(path):
    """Returns the temporary folders that killed installs have left in the folder of `path`."""
    folder, name = os.path.split(path)
    return glob.glob(os.path.join(glob.escape(folder), f".{glob.escape(name)}.*.new"))
