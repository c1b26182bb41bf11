"""The folder of logs: a folder for each cycle, kept by age and size; the last cycle's summary; the lock."""
import fcntl
import gzip
import json
import os
import shutil
import stat
import time


class NoFolder(OSError):
    """Why a folder of logs is not used."""


class Folder:
    """A folder that only its owner reads. It is never followed through a link, and each file in it is made new."""

    def __init__(self, path, most_bytes=1 << 30, most_days=14, clock=time):
        self.path, self.most_bytes, self.most_seconds, self.clock = path, most_bytes, most_days * 86400, clock
        self.sizes = None

    def _at(self):
        """The open folder."""
        try:
            os.mkdir(self.path, 0o700)
        except FileExistsError:
            pass
        handle = os.open(self.path, os.O_RDONLY | os.O_DIRECTORY | os.O_NOFOLLOW)
        found = os.fstat(handle)
        if found.st_uid != os.geteuid():
            os.close(handle)
            raise NoFolder(f"{self.path} belongs to another user")
        if stat.S_IMODE(found.st_mode) & 0o077:
            os.fchmod(handle, 0o700)
        return handle

    def lock(self):
        """Locks the folder, or gives None where another loop has it. The lock is held as long as what is given."""
        at = self._at()
        try:
            handle = os.open("lock", os.O_RDWR | os.O_CREAT | os.O_NOFOLLOW, 0o600, dir_fd=at)
        finally:
            os.close(at)
        try:
            fcntl.flock(handle, fcntl.LOCK_EX | fcntl.LOCK_NB)
        except OSError:
            os.close(handle)
            return None
        return handle

    def write(self, name, content):
        """Puts a whole file in the place of an earlier one."""
        at = self._at()
        try:
            _replace(at, name, content)
        finally:
            os.close(at)

    def read(self, name):
        at = self._at()
        try:
            with open(os.open(name, os.O_RDONLY | os.O_NOFOLLOW, dir_fd=at), "rb") as file:
                return file.read()
        finally:
            os.close(at)

    def keep(self, name, files):
        """Keeps the files of a cycle in a folder of their own, those of some size compressed, and lets old cycles go first."""
        packed = {it: content if it == "cycle.json" else gzip.compress(content, 1) for it, content in files.items() if content}
        self.rotate(sum(map(len, packed.values())))
        at = self._at()
        try:
            _folder(at, "cycles")
            os.mkdir(f"cycles/{name}", 0o700, dir_fd=at)
            within = os.open(f"cycles/{name}", os.O_RDONLY | os.O_DIRECTORY | os.O_NOFOLLOW, dir_fd=at)
            try:
                for it, content in packed.items():
                    _replace(within, it if it == "cycle.json" else f"{it}.gz", content)
            finally:
                os.close(within)
        finally:
            os.close(at)
        self.sizes[name] = (self.clock.time(), sum(map(len, packed.values())))

    def rotate(self, room=0):
        """Removes the oldest cycles until what is left is young and small enough, with room for another."""
        if self.sizes is None:
            self.sizes = self._found()
        total = sum(size for _, size in self.sizes.values()) + room
        for name in sorted(self.sizes):
            made, size = self.sizes[name]
            if total <= self.most_bytes and self.clock.time() - made <= self.most_seconds:
                break
            shutil.rmtree(os.path.join(self.path, "cycles", name), ignore_errors=True)
            del self.sizes[name]
            total -= size
        return total - room

    def _found(self):
        """The cycles that are there, with their age and size."""
        found, cycles = {}, os.path.join(self.path, "cycles")
        for name in os.listdir(cycles) if os.path.isdir(cycles) and not os.path.islink(cycles) else []:
            folder = os.path.join(cycles, name)
            if os.path.isdir(folder) and not os.path.islink(folder):
                found[name] = (_time_of(name, folder), sum(os.lstat(os.path.join(folder, it)).st_size for it in os.listdir(folder)))
        return found

    def bytes(self):
        return sum(size for _, size in (self.sizes or {}).values())


def _time_of(name, folder):
    """When a cycle was, by its name, or else by its folder."""
    try:
        return time.mktime(time.strptime(name.split(".")[0], "%Y%m%d-%H%M%S"))
    except (ValueError, OverflowError):
        return os.lstat(folder).st_mtime


def _folder(at, name):
    try:
        os.mkdir(name, 0o700, dir_fd=at)
    except FileExistsError:
        if not stat.S_ISDIR(os.lstat(name, dir_fd=at).st_mode):
            raise NoFolder(f"{name} is no folder") from None


def _replace(at, name, content):
    fresh = f".{name}.new"
    try:
        os.unlink(fresh, dir_fd=at)
    except FileNotFoundError:
        pass
    try:
        with open(os.open(fresh, os.O_WRONLY | os.O_CREAT | os.O_EXCL | os.O_NOFOLLOW, 0o600, dir_fd=at), "wb") as file:
            file.write(content)
        os.rename(fresh, name, src_dir_fd=at, dst_dir_fd=at)
    except OSError:
        try:
            os.unlink(fresh, dir_fd=at)
        except OSError:
            pass
        raise


def last_cycle(folder):
    """The summary of the last cycle, or None."""
    try:
        return json.loads(folder.read("last.json"))
    except (OSError, ValueError):
        return None
