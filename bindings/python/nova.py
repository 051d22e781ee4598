"""The file system of nova_c from Python, by ctypes.

    from nova import Nova

    with Nova.format("libnova_c.so", blocks=64, cpus=2) as fs:
        fs.create("/hello")
        fs.write("/hello", 0, b"hi there")
        print(fs.read("/hello"))
        open("disk.img", "wb").write(fs.image())

The shared library is made of the static one: see the head of tests/bindings.sh. Paths are `str` or `bytes`. Times are numbers,
nanoseconds since 1970 where none is given. A refused call raises `Refused`, which is an `OSError` with its `errno` where the
refusal has one, and its `status`, as nova.h names it. A `Nova` is used by one thread at a time.
"""

import ctypes
import errno
import os
import time
from collections import namedtuple
from ctypes import POINTER, Structure, byref, c_char_p, c_size_t, c_uint32, c_uint64, c_void_p

STATUSES = {
    1: ("not found", errno.ENOENT),
    2: ("exists", errno.EEXIST),
    3: ("not a directory", errno.ENOTDIR),
    4: ("is a directory", errno.EISDIR),
    5: ("not empty", errno.ENOTEMPTY),
    6: ("bad name", errno.EINVAL),
    7: ("no space", errno.ENOSPC),
    8: ("no inodes", errno.ENOSPC),
    9: ("too large", errno.EFBIG),
    10: ("read only", errno.EROFS),
    11: ("link limit", errno.EMLINK),
    12: ("into itself", errno.EINVAL),
    13: ("bad cpu", errno.EINVAL),
    14: ("out of memory", errno.ENOMEM),
    15: ("stopped", errno.EIO),
    16: ("closed", errno.EBADF),
    17: ("open already", errno.EBUSY),
    18: ("too small", errno.ERANGE),
    19: ("has version 2 already", errno.EINVAL),
    30: ("not 8 to 262,144 blocks", errno.EINVAL),
    31: ("not 1 to 64 cpus", errno.EINVAL),
    32: ("not 1 to 64 table blocks, or no block is left", errno.EINVAL),
}
TOO_SMALL = 18
SUPER_FAULTS = range(20, 27)
BLOCK = 4096

Stat = namedtuple("Stat", "inode size time is_directory mode owner group links")
Space = namedtuple("Space", "blocks free_blocks cpus table_blocks inodes faults")


class Refused(OSError):
    """A call was refused. `status` says why, as nova.h names it."""

    def __init__(self, call, status):
        if status in SUPER_FAULTS:
            text, number = f"superblock fault S{status - SUPER_FAULTS.start + 1}", errno.EINVAL
        else:
            text, number = STATUSES.get(status, (f"status {status}", errno.EIO))
        super().__init__(number, f"{call}: {text}")
        self.status = status


class _Handle(Structure):
    _fields_ = [("at", c_void_p), ("is_open", c_size_t)]


class _Numbers(Structure):
    _fields_ = [(name, c_uint64) for name in ("inode", "size", "time")]
    _fields_ += [(name, c_uint32) for name in ("is_directory", "mode", "owner", "group", "links")]


class _Space(Structure):
    _fields_ = [(name, c_uint64) for name in Space._fields]


class _Cleaned(Structure):
    _fields_ = [("block", c_uint64), ("has_freed", c_uint32)]


_PATH = (c_char_p, c_size_t)
_ROOM = (c_char_p, c_size_t)
_USED = (POINTER(c_size_t),)
# What each call takes behind the handle.
_CALLS = {
    "format": (c_uint64, c_uint64, c_uint64, c_uint64),
    "open": _ROOM,
    "close": (),
    "save": _ROOM,
    "space_of": (POINTER(_Space),),
    "report": (*_ROOM, *_USED),
    "stat": (*_PATH, POINTER(_Numbers)),
    "read": (*_PATH, c_uint64, *_ROOM, *_USED),
    "list": (*_PATH, *_ROOM, *_USED),
    "stat_inode": (c_uint64, POINTER(_Numbers)),
    "read_inode": (c_uint64, c_uint64, *_ROOM, *_USED),
    "list_inode": (c_uint64, *_ROOM, *_USED),
    "lookup_inode": (c_uint64, *_PATH, POINTER(_Numbers)),
    "create_inode": (c_uint64, c_uint64, *_PATH, c_uint32, c_uint64, POINTER(c_uint64)),
    "mkdir_inode": (c_uint64, c_uint64, *_PATH, c_uint32, c_uint64, POINTER(c_uint64)),
    "link_inode": (c_uint64, c_uint64, c_uint64, *_PATH, c_uint64),
    "unlink_inode": (c_uint64, c_uint64, *_PATH, c_uint64),
    "rmdir_inode": (c_uint64, c_uint64, *_PATH, c_uint64),
    "write_inode": (c_uint64, c_uint64, c_uint64, *_ROOM, c_uint64),
    "set_size_inode": (c_uint64, c_uint64, c_uint64, c_uint64),
    "set_attr_inode": (c_uint64, c_uint64, c_uint32, c_uint32, c_uint32, c_uint64),
    "create": (c_uint64, *_PATH, c_uint32, c_uint64),
    "mkdir": (c_uint64, *_PATH, c_uint32, c_uint64),
    "write": (c_uint64, *_PATH, c_uint64, *_ROOM, c_uint64),
    "set_size": (c_uint64, *_PATH, c_uint64, c_uint64),
    "set_attr": (c_uint64, *_PATH, c_uint32, c_uint32, c_uint32, c_uint64),
    "link": (c_uint64, *_PATH, *_PATH, c_uint64),
    "unlink": (c_uint64, *_PATH, c_uint64),
    "rmdir": (c_uint64, *_PATH, c_uint64),
    "rename": (c_uint64, *_PATH, *_PATH, c_uint64),
    "replace": (c_uint64, *_PATH, *_PATH, c_uint64),
    "clean": (*_PATH, POINTER(_Cleaned)),
}


class Nova:
    """A mounted image, in memory. `format` and `open` make one."""

    def __init__(self, library):
        self._library = ctypes.CDLL(os.fspath(library))
        self._handle = _Handle()
        for name, words in _CALLS.items():
            call = getattr(self._library, f"nova_{name}")
            call.argtypes, call.restype = (POINTER(_Handle), *words), c_uint32

    @classmethod
    def format(cls, library, blocks, cpus=1, tables=1, time=0):
        """A new file system over so many blocks of zeros."""
        fs = cls(library)
        fs._call("format", blocks, cpus, tables, time)
        return fs

    @classmethod
    def open(cls, library, image):
        """Recovers an image, which is bytes. One with faults can only be read."""
        fs = cls(library)
        fs._call("open", image, len(image))
        return fs

    def __enter__(self):
        return self

    def __exit__(self, *_):
        self.close()

    def __del__(self):
        if self._handle.is_open:
            self.close()

    def close(self):
        """Gives the memory back. From then on each call is refused with status 16."""
        if self._handle.is_open:
            self._call("close")

    def image(self):
        """The bytes of the image as it is now."""
        room = ctypes.create_string_buffer(self.space().blocks * BLOCK)
        self._call("save", room, len(room))
        return room.raw

    def space(self):
        """How much there is of what."""
        out = _Space()
        self._call("space_of", byref(out))
        return Space(*(getattr(out, name) for name in Space._fields))

    def report(self):
        """What `nova check` would print of the mount, as text."""
        return self._told("report").decode()

    def stat(self, path):
        return self._numbers("stat", *_of_path(path))

    def read(self, path, offset=0, count=None):
        """The bytes from an offset on up to the size, at most so many."""
        count = max(self.stat(path).size - offset, 0) if count is None else count
        return self._bytes(count, "read", *_of_path(path), offset)

    def list(self, path):
        """The names of a directory, as bytes, with their inodes, rising."""
        return _names_of(self._told("list", *_of_path(path)))

    def stat_inode(self, inode):
        """The same by an inode's number, also of one that no path leads to."""
        return self._numbers("stat_inode", inode)

    def read_inode(self, inode, offset=0, count=None):
        count = max(self.stat_inode(inode).size - offset, 0) if count is None else count
        return self._bytes(count, "read_inode", inode, offset)

    def list_inode(self, inode):
        return _names_of(self._told("list_inode", inode))

    def lookup_inode(self, directory, name):
        """What a name of the directory of this number stands for."""
        return self._numbers("lookup_inode", directory, *_of_path(name))

    def create(self, path, mode=0o644, cpu=0, time=None):
        self._call("create", cpu, *_of_path(path), mode, _of_time(time))

    def mkdir(self, path, mode=0o755, cpu=0, time=None):
        self._call("mkdir", cpu, *_of_path(path), mode, _of_time(time))

    def write(self, path, offset, data, cpu=0, time=None):
        data = bytes(data)
        self._call("write", cpu, *_of_path(path), offset, data, len(data), _of_time(time))

    def set_size(self, path, size, cpu=0, time=None):
        self._call("set_size", cpu, *_of_path(path), size, _of_time(time))

    def set_attr(self, path, mode, owner, group, cpu=0, time=None):
        self._call("set_attr", cpu, *_of_path(path), mode, owner, group, _of_time(time))

    def write_inode(self, inode, offset, data, cpu=0, time=None):
        data = bytes(data)
        self._call("write_inode", cpu, inode, offset, data, len(data), _of_time(time))

    def set_size_inode(self, inode, size, cpu=0, time=None):
        self._call("set_size_inode", cpu, inode, size, _of_time(time))

    def set_attr_inode(self, inode, mode, owner, group, cpu=0, time=None):
        self._call("set_attr_inode", cpu, inode, mode, owner, group, _of_time(time))

    def create_inode(self, directory, name, mode=0o644, cpu=0, time=None):
        """Makes a file with this name in the directory of this number: the file's number."""
        return self._made("create_inode", cpu, directory, *_of_path(name), mode, _of_time(time))

    def mkdir_inode(self, directory, name, mode=0o755, cpu=0, time=None):
        return self._made("mkdir_inode", cpu, directory, *_of_path(name), mode, _of_time(time))

    def link_inode(self, inode, directory, name, cpu=0, time=None):
        self._call("link_inode", cpu, inode, directory, *_of_path(name), _of_time(time))

    def unlink_inode(self, directory, name, cpu=0, time=None):
        self._call("unlink_inode", cpu, directory, *_of_path(name), _of_time(time))

    def rmdir_inode(self, directory, name, cpu=0, time=None):
        self._call("rmdir_inode", cpu, directory, *_of_path(name), _of_time(time))

    def link(self, path, other, cpu=0, time=None):
        self._call("link", cpu, *_of_path(path), *_of_path(other), _of_time(time))

    def unlink(self, path, cpu=0, time=None):
        self._call("unlink", cpu, *_of_path(path), _of_time(time))

    def rmdir(self, path, cpu=0, time=None):
        self._call("rmdir", cpu, *_of_path(path), _of_time(time))

    def rename(self, path, other, cpu=0, time=None):
        self._call("rename", cpu, *_of_path(path), *_of_path(other), _of_time(time))

    def replace(self, path, other, cpu=0, time=None):
        self._call("replace", cpu, *_of_path(path), *_of_path(other), _of_time(time))

    def clean(self, path):
        """Frees the first page that the inode's log can do without: its block, or None where it needs each."""
        out = _Cleaned()
        self._call("clean", *_of_path(path), byref(out))
        return out.block if out.has_freed else None

    def _call(self, name, *words):
        status = getattr(self._library, f"nova_{name}")(byref(self._handle), *words)
        if status:
            raise Refused(name, status)

    def _numbers(self, name, *words):
        """What a call says of an inode."""
        out = _Numbers()
        self._call(name, *words, byref(out))
        return Stat(*(getattr(out, field) for field in Stat._fields))

    def _made(self, name, *words):
        """The number of what a call makes."""
        made = c_uint64()
        self._call(name, *words, byref(made))
        return made.value

    def _bytes(self, count, name, *words):
        """At most so many bytes that a call reads."""
        room, done = ctypes.create_string_buffer(count), c_size_t()
        self._call(name, *words, room, count, byref(done))
        return room.raw[: done.value]

    def _told(self, name, *words):
        """What a call puts into a buffer, which grows as it has to."""
        room, used = ctypes.create_string_buffer(BLOCK), c_size_t()
        while True:
            try:
                self._call(name, *words, room, len(room), byref(used))
                return room.raw[: used.value]
            except Refused as refused:
                if refused.status != TOO_SMALL:
                    raise
                room = ctypes.create_string_buffer(used.value)


def _of_path(path):
    path = os.fsencode(path)
    return path, len(path)


def _names_of(told):
    """The names of a listing as it crosses."""
    names = []
    while told:
        inode, length = (int.from_bytes(told[at : at + 8], "little") for at in (0, 8))
        names.append((told[16 : 16 + length], inode))
        told = told[16 + length :]
    return names


def _of_time(given):
    return time.time_ns() if given is None else given
