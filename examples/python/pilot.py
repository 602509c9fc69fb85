"""Documents in a volume, from Python: ctypes over libpilot.so alone.

    with Pilot("image", sectors=4096) as volume:
        letter = volume.save(b"Dear ..")
        volume.load(letter, 7)

As a program, `python3 pilot.py IMAGE` saves 100,000 bytes in a volume, which it makes where there is none, and loads them again.
The library is $PILOT_LIBRARY, or out/libpilot.so of this repository.
"""
import ctypes
import os
import sys
from ctypes import byref, c_bool, c_char_p, c_int, c_size_t, c_uint16, c_uint32, c_uint64, c_void_p

ROOT = os.path.dirname(os.path.dirname(os.path.dirname(os.path.realpath(__file__))))
LIBRARY = ctypes.CDLL(os.environ.get("PILOT_LIBRARY") or os.path.join(ROOT, "out", "libpilot.so"))
LIBRARY.pilot_text.restype = c_char_p
LIBRARY.pilot_is_open.restype = c_bool

WORDS = """Ok Syntax Space File Size Full Spaces Gap Range Children Mapped Window Immutable NotMapped NoMap ReadOnly FileMapped
Root Ids NoFile Disk Damaged NotVolume Unclean Version Count NoMemory Closed Open Argument System InUse""".split()


class Refused(Exception):
    """A call was not carried out. Its code is in `code`."""


# One exception for each code: NoMap, ReadOnly, Unclean ..
ERRORS = {code: type(word, (Refused,), {"code": code}) for code, word in enumerate(WORDS)}
globals().update({word: ERRORS[code] for code, word in enumerate(WORDS) if code})


class Handle(ctypes.Structure):
    _fields_ = [("engine", c_void_p)]


class Reply(ctypes.Structure):
    _fields_ = [("file", c_uint64), ("space", c_uint32), ("page", c_uint32), ("pages", c_uint32), ("free", c_uint32),
                ("kind", c_uint16), ("permanent", c_bool), ("immutable", c_bool)]


class Report(ctypes.Structure):
    _fields_ = [("files", c_uint32), ("pages", c_uint32), ("freed", c_uint32), ("lost", c_uint32)]


def call(name, *words):
    """Calls the library, and raises what its code says."""
    code = getattr(LIBRARY, "pilot_" + name)(*words)
    if code:
        raise ERRORS[code](f"{name}: {LIBRARY.pilot_text(code).decode()}")


def make(path, sectors, serial=7, counter=1):
    """Makes a new image file with an empty volume."""
    call("format", os.fsencode(path), c_uint32(sectors), c_uint32(serial), c_uint32(counter))


def scavenge(path):
    """Restores a volume that was not closed."""
    report = Report()
    call("scavenge", os.fsencode(path), byref(report))
    return report


class Pilot:
    """A session on a volume."""

    def __init__(self, path, frames=64, sectors=0):
        self.handle = Handle(None)
        if sectors and not os.path.exists(path):
            make(path, sectors)
        try:
            call("open", byref(self.handle), os.fsencode(path), c_uint32(frames))
        except Refused:
            LIBRARY.pilot_free(byref(self.handle))
            raise

    def __enter__(self):
        return self

    def __exit__(self, kind, why, trace):
        self.close()

    def close(self):
        """Closes the volume. A handle that was closed may be closed again."""
        if self.handle.engine:
            try:
                if LIBRARY.pilot_is_open(byref(self.handle)):
                    call("close", byref(self.handle))
            finally:
                LIBRARY.pilot_free(byref(self.handle))

    def do(self, name, *words):
        if not self.handle.engine:
            raise ERRORS[WORDS.index("Closed")](name)
        call(name, byref(self.handle), *words)

    def ask(self, name, *words):
        reply = Reply()
        self.do(name, *words, byref(reply))
        return reply

    def files(self):
        """The identifiers of all files."""
        last = 0
        while True:
            try:
                last = self.ask("next", c_uint64(last)).file
            except ERRORS[WORDS.index("NoFile")]:
                return
            yield last

    def window(self, file, pages, writable):
        space = self.ask("space", c_uint32(0), c_uint32(pages))
        self.ask("map", c_uint32(space.space), c_uint64(file), c_uint32(0), c_bool(writable))
        return space

    def close_window(self, space):
        self.do("unmap", c_uint32(space.space))
        self.ask("remove", c_uint32(space.space))

    def save(self, text, kind=1):
        """Saves bytes as a new document: whole or not at all, wherever the process is killed."""
        pages = max(1, -(-len(text) // 512))
        file = self.ask("create", c_uint32(pages), c_uint16(kind)).file
        space = self.window(file, pages, True)
        done = c_size_t()
        self.do("store", c_uint32(space.page * 512), bytes(text), c_size_t(len(text)), byref(done))
        self.do("force", c_uint32(space.space))
        self.do("permanent", c_uint64(file))
        self.close_window(space)
        return file

    def load(self, file, count):
        """The first bytes of a document."""
        pages = self.ask("attributes", c_uint64(file)).pages
        space = self.window(file, pages, False)
        into = ctypes.create_string_buffer(max(1, count))
        done = c_size_t()
        try:
            self.do("load", c_uint32(space.page * 512), into, c_size_t(count), byref(done))
        finally:
            self.close_window(space)
        return into.raw[:count]


def main(path):
    text = b"a letter\n" * 11111 + b"."
    with Pilot(path, sectors=4096) as volume:
        file = volume.save(text)
    with Pilot(path) as volume:
        same = volume.load(file, len(text)) == text
        print(f"{file:016x} {len(text)} bytes, {'the same' if same else 'others'}, {len(list(volume.files()))} files")
        try:
            Pilot(path)
        except InUse as why:  # noqa: F821
            print(why)
    return 0 if same else 1


if __name__ == "__main__":
    sys.exit(main(sys.argv[1]))
