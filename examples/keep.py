#!/usr/bin/env python3
"""Keeps files of the host in a volume, through `pilot run`: one call a line, and each reply is read before the next line.

    keep.py PILOT IMAGE put FILE          puts FILE in, and prints the identifier that it got
    keep.py PILOT IMAGE save ID FILE      puts FILE in the place of the file ID, and prints its new identifier
    keep.py PILOT IMAGE get ID            writes the file ID to standard output
    keep.py PILOT IMAGE list              prints identifier and length of each file that was kept so

PILOT is the program or the script `pilot`, IMAGE the path of a volume's image. A kept file has the type 24320. Its page 0 begins
with the length in bytes, 8 bytes big-endian, since the volume counts pages alone; the bytes follow.
"""
import os
import subprocess
import sys

TYPE = 24320
PAGE = 512
MOST = 64  # bytes of one load or store
HEAD = 8


class Refused(Exception):
    """The call changed nothing; the text is the reply."""


class Session:
    """A run of `pilot` on a volume. It is closed, and the volume with it, at the end of a `with`."""

    def __init__(self, pilot, image):
        self.process = subprocess.Popen([pilot, image, "run"], stdin=subprocess.PIPE, stdout=subprocess.PIPE)

    def ask(self, line):
        """Sends one call and gives the words of its reply."""
        try:
            self.process.stdin.write(line.encode("ascii", "replace") + b"\n")
            self.process.stdin.flush()
        except BrokenPipeError:
            pass  # the last line that it wrote says why it stopped
        reply = self.process.stdout.readline().decode("ascii").rstrip("\n")
        if not reply or reply.startswith("stopped"):
            raise SystemExit(f"pilot: {reply or 'it ended without a reply'}")
        if reply.startswith("error"):
            raise Refused(f"{line}: {reply}")
        return reply.split(" ")

    def __enter__(self):
        return self

    def __exit__(self, kind, value, traceback):
        if kind is None or kind is Refused:
            self.ask("close")
        try:
            self.process.stdin.close()
        except BrokenPipeError:
            pass  # it has stopped
        self.process.stdout.close()
        self.process.wait()


def window(session, file, pages, mode):
    """Shows all pages of the file, and gives the handle of the space and its first address."""
    _, space, first = session.ask(f"space 0 {pages}")
    session.ask(f"map {space} {file} 0 {mode}")
    return space, int(first) * PAGE


def put(session, data):
    """Makes a file of these bytes, and gives its identifier. It is there whole or not at all: `permanent` comes last."""
    data = len(data).to_bytes(HEAD, "big") + data
    pages = -(-len(data) // PAGE)
    _, file = session.ask(f"create {pages} {TYPE}")
    space, address = window(session, file, pages, "rw")
    for at in range(0, len(data), MOST):
        session.ask(f"store {address + at} {data[at:at + MOST].hex()}")
    session.ask(f"force {space}")
    session.ask(f"permanent {file}")
    session.ask(f"unmap {space}")
    return file


def load(session, address, count):
    """Gives so many bytes from an address on."""
    parts = []
    for at in range(0, count, MOST):
        _, digits = session.ask(f"load {address + at} {min(MOST, count - at)}")
        parts.append(bytes.fromhex(digits))
    return b"".join(parts)


def pages_of(session, file):
    """Gives how many pages a kept file has; a file of another type is refused."""
    _, pages, kind, *_ = session.ask(f"attr {file}")
    if int(kind) != TYPE:
        raise Refused(f"{file} is of type {kind}, and was not kept so")
    return pages


def get(session, file):
    """Gives the bytes of a kept file."""
    pages = pages_of(session, file)
    _, address = window(session, file, pages, "ro")
    length = int.from_bytes(load(session, address, HEAD), "big")
    return load(session, address + HEAD, length)


def kept(session):
    """Gives identifier and length of each kept file."""
    file = "0" * 16
    while (reply := session.ask(f"next {file}")) != ["none"]:
        file = reply[1]
        _, pages, kind, *_ = session.ask(f"attr {file}")
        if int(kind) == TYPE:
            space, address = window(session, file, pages, "ro")
            yield file, int.from_bytes(load(session, address, HEAD), "big")
            session.ask(f"unmap {space}")
            session.ask(f"remove {space}")


def main(words):
    match words:
        case ["-h" | "--help"]:
            print(__doc__)
        case [pilot, image, "put", path]:
            with open(path, "rb") as it, Session(pilot, image) as session:
                print(put(session, it.read()))
        case [pilot, image, "save", old, path]:
            with open(path, "rb") as it, Session(pilot, image) as session:
                pages_of(session, old)  # an identifier of no kept file puts nothing in
                print(put(session, it.read()))
                session.ask(f"delete {old}")
        case [pilot, image, "get", file]:
            with Session(pilot, image) as session:
                sys.stdout.buffer.write(get(session, file))
        case [pilot, image, "list"]:
            with Session(pilot, image) as session:
                for file, length in kept(session):
                    print(file, length)
        case _:
            raise SystemExit(__doc__)


if sys.stdout is None:
    raise SystemExit("keep.py: standard output is closed")
try:
    main(sys.argv[1:])
    sys.stdout.flush()
except Refused as why:
    raise SystemExit(f"keep.py: {why}")
except OSError as why:  # a missing file, a folder, no such program, an output that is full or closed
    os.dup2(os.open(os.devnull, os.O_WRONLY), 1)  # what could not be written is not tried again
    raise SystemExit(f"keep.py: {why}")
except ValueError:
    raise SystemExit("keep.py: what the program answered is no reply of pilot")
