"""Files: read without trust, written whole; room on the disk, and outputs that are cut."""
from __future__ import annotations

import errno
import os
import stat
from typing import BinaryIO, Dict, Iterable, List, Optional

from ..telling.status import Status
from ..telling.voice import ME, Stop


def first_line(path: str) -> str:
    """The first line of a file, without its end; nothing where there is no such file."""
    return os.fsdecode(content(path, 65536).partition(b"\n")[0])


def content(path: str, most: Optional[int] = None) -> bytes:
    """All of a file, or its first part; nothing where there is no such file."""
    try:
        fd = os.open(path, os.O_RDONLY | os.O_CLOEXEC)
    except OSError:
        return b""
    try:
        parts = [os.read(fd, most or 65536)]
        while parts[-1] and most is None:
            parts.append(os.read(fd, 1 << 20))
        return b"".join(parts)
    except OSError:
        return b""
    finally:
        os.close(fd)


def write_all(fd: int, data: bytes) -> None:
    """Writes all of it into an open file."""
    left = memoryview(data)
    while left:
        left = left[os.write(fd, left) :]


# names of the standard input
INPUT = ("-", "/dev/stdin", "/dev/fd/0", "/proc/self/fd/0")


def open_named(path: str) -> BinaryIO:
    """A file that the user names, which may be the standard input."""
    return open(0, "rb", closefd=False) if path in INPUT else open(path, "rb")


def is_ours(path: str) -> bool:
    """Whether it is a folder, and no link to one, that this user made."""
    try:
        found = os.lstat(path)
    except OSError:
        return False
    return stat.S_ISDIR(found.st_mode) and found.st_uid == os.getuid()


INSTALLED = "/lib/farmdawn/git_farmdawn"  # where the modules stand below a PREFIX


def find_program() -> str:
    """The program `farmdawn`: the one that FARMDAWN names, or that was installed with this driver,
    or that is on the path."""
    named = os.environ.get("FARMDAWN")
    if named:
        return os.path.abspath(named) if "/" in named else named
    modules = os.path.dirname(os.path.dirname(os.path.abspath(__file__)))
    beside = modules[: -len(INSTALLED)] + "/bin/farmdawn"
    return beside if modules.endswith(INSTALLED) and os.access(beside, os.X_OK) else "farmdawn"


PROBE = 65536
LEAST = 1 << 24  # bytes of a disk, or a quarter of a small one
FIRST_RUN = ".run1.log"  # the output of a first run whose outcome was taken back
NEW_FILE = os.O_CREAT | os.O_EXCL | os.O_CLOEXEC | os.O_NOFOLLOW


class NoRoom(Exception):
    """There is no room: a test gives no verdict there."""


def kind_of_log(run: int) -> str:
    """What stands behind the commit in the name of an output: the first run has the plain name."""
    return ".log" if run == 1 else ".run%d.log" % run


def make_folder(folder: str) -> None:
    """A folder of ours; raises Stop where it cannot be."""
    try:
        os.makedirs(folder, exist_ok=True)
    except OSError:
        raise Stop(
            Status.NO_ROOM,
            os.path.dirname(folder) + " cannot be written, or has no room; nothing was tested",
        ) from None


def open_new(path: str, access: int = os.O_WRONLY) -> int:
    """A new file of that name, to which is appended; what had the name before is removed. Another
    search may make and remove files of this name meanwhile."""
    while True:
        try:
            return os.open(path, NEW_FILE | access | os.O_APPEND, 0o666)
        except FileExistsError:
            try:
                os.unlink(path)
            except FileNotFoundError:
                pass


def write_whole(path: str, data: bytes, lasts: bool = False) -> None:
    """A whole file under its name, or none. One that `lasts` stays when the power fails, too."""
    new = "%s.new.%d" % (path, os.getpid())
    try:
        fd = open_new(new)
        try:
            write_all(fd, data)
            if lasts:
                os.fsync(fd)
        finally:
            os.close(fd)
        os.replace(new, path)
    except OSError:
        remove(new)
        raise
    if lasts:
        sync_folder(os.path.dirname(path))


def sync_folder(folder: str) -> None:
    """Has the disk know which names a folder has, where it can do that."""
    try:
        fd = os.open(folder, os.O_RDONLY | os.O_DIRECTORY | os.O_CLOEXEC)
    except OSError:
        return
    try:
        os.fsync(fd)
    except OSError:
        pass
    finally:
        os.close(fd)


def remove(path: str) -> None:
    """Removes a file, where it is there."""
    try:
        os.unlink(path)
    except OSError:
        pass


def copy_file(source: str, target: str) -> None:
    """Copies a file with its mode and its times."""
    import shutil  # slow to import, and few searches copy anything

    shutil.copy2(source, target)


def copy_state(source: str, target: str) -> None:
    """Gives a file or a folder the mode and the times of another one."""
    import shutil

    shutil.copystat(source, target)


def open_unnamed(folder: str) -> int:
    """A file without a name, or where the disk has none, one that is removed at once."""
    try:
        return os.open(folder, os.O_TMPFILE | os.O_RDWR | os.O_CLOEXEC, 0o600)
    except OSError as fault:
        if fault.errno not in (errno.EOPNOTSUPP, errno.EISDIR, errno.EINVAL, errno.ENOENT):
            raise
    path = os.path.join(folder, ".unnamed.%d" % os.getpid())
    fd = open_new(path, os.O_RDWR)
    remove(path)
    return fd


def is_scarce(folder: str) -> bool:
    """Whether so little room is left that what fails may fail for that."""
    try:
        found = os.statvfs(folder)
    except OSError:
        return False
    whole, left = found.f_blocks * found.f_frsize, found.f_bavail * found.f_frsize
    return whole > 0 and left < min(LEAST, whole // 4)


def one_a_disk(folders: Iterable[str]) -> List[str]:
    """Of these folders one for each disk that they are on; one that is gone is none's."""
    found: Dict[object, str] = {}
    for folder in folders:
        try:
            found[os.stat(folder).st_dev] = folder
        except OSError:
            found[folder] = folder
    return list(found.values())


def has_room(folder: str) -> bool:
    """Whether there is room for more than a line."""
    try:
        fd = open_unnamed(folder)
    except OSError:
        return False
    try:
        data = b" " * PROBE
        while data:
            data = data[os.write(fd, data) :]
        return True
    except OSError:
        return False
    finally:
        os.close(fd)


def cut_log(path: str, limit: int) -> None:
    """Cuts the middle out of an output that is too long."""
    cut = path + ".cut"
    try:
        length = os.stat(path, follow_symlinks=False).st_size
        if length <= limit:
            return
        half = limit // 2
        with open(path, "rb") as old, open(open_new(cut), "wb") as new:
            left = half
            while left:
                part = old.read(min(left, 1 << 20))
                if not part:
                    break
                new.write(part)
                left -= len(part)
            new.write(
                b"\n%s: %d bytes are cut out here (--log-limit)\n"
                % (ME.encode(), length - 2 * half)
            )
            old.seek(length - half)
            for part in iter(lambda: old.read(1 << 20), b""):
                new.write(part)
        os.replace(cut, path)
    except OSError:
        remove(cut)


def last_lines(path: str, count: int) -> list[bytes]:
    """The last lines of a file, at most so many; none where it cannot be read."""
    try:
        with open(path, "rb") as file:
            file.seek(0, os.SEEK_END)
            file.seek(max(0, file.tell() - PROBE))
            lines = file.read().split(b"\n")
    except OSError:
        return []
    if lines[-1] == b"":
        lines.pop()
    return lines[-count:]
