"""Where bytes come from: files and standard input, looked at before they are read; Dirac streams in containers."""
import io
import os
import shutil
import stat
import sys

from . import ogg, units, y4m
from .processes import Pipe, pieces
from .refusal import Refusal

LOOKED_AT = 4096
# a line of ffmpeg's that says how to call it otherwise
ADVICE = "To ignore this"
# how files of containers that may hold Dirac begin, and from which byte on
CONTAINERS = [(b"\x1a\x45\xdf\xa3", 0), (b"RIFF", 0), (b"ftyp", 4), (b"moov", 4), (b"mdat", 4), (b"wide", 4)]
CONTAINERS += [(b"\x30\x26\xb2\x75\x8e\x66\xcf\x11", 0), (b"nut/multimed", 0), (b"\x00\x00\x01\xba", 0)]
# packets of MPEG-TS have 188 bytes, those of discs four more in front; each begins with this byte
PACKET, PACKET_LENGTHS = b"\x47", ((0, 188), (4, 192))


class _Joined(io.RawIOBase):
    """Bytes that were looked at, and what comes behind them."""

    def __init__(self, first, rest):
        self._first, self._rest = first, rest

    def readable(self):
        return True

    def readinto(self, buffer):
        data = self._first[: len(buffer)] or self._rest.read1(len(buffer))
        self._first = self._first[len(buffer) :]
        buffer[: len(data)] = data
        return len(data)


class Source:
    """An opened file or standard input, its first bytes, and how many it has where that is known."""

    def __init__(self, path):
        self.path, self.size = path, None
        self.name = "standard input" if path == "-" else path
        try:
            file = sys.stdin.buffer if path == "-" else open(path, "rb")
            status = os.fstat(file.fileno())
            if stat.S_ISDIR(status.st_mode):
                raise Refusal(f"{self.name} is a folder")
            if stat.S_ISREG(status.st_mode):
                self.size = status.st_size
            if path == "-" and sys.stdin.isatty():
                print("dirac: waiting for bytes on standard input", file=sys.stderr)
            self.first = file.read(LOOKED_AT)
        except (OSError, AttributeError) as error:
            raise Refusal(f"{self.name}: {getattr(error, 'strerror', None) or 'it is closed'}") from None
        self.file = io.BufferedReader(_Joined(self.first, file), 1 << 16)
        self.read, self.read1, self.readline = self.file.read, self.file.read1, self.file.readline

    def begins(self, words, place=0):
        return self.first[place : place + len(words)] == words

    def is_y4m(self):
        return self.begins(y4m.MAGIC)

    def is_dirac(self):
        return self.begins(units.PREFIX)

    def is_ogg(self):
        return self.begins(ogg.CAPTURE)

    def is_ogg_of_dirac(self):
        """Whether one of the first pages begins a Dirac stream."""
        return self.is_ogg() and units.PREFIX in self.first

    def is_container(self):
        if any(self.begins(words, place) for words, place in CONTAINERS):
            return True
        return any(self.begins(PACKET, at) and self.begins(PACKET, at + length) for at, length in PACKET_LENGTHS)


def tell(line):
    print(f"dirac: {line}", file=sys.stderr)


def wanted(command, why, package="ffmpeg"):
    """The path of a command that may be missing; `why` begins the sentence that says so."""
    path = shutil.which(command)
    if path is None:
        raise Refusal(f"{why}, {command} is wanted, and it isn't there: install it (Debian: apt-get install {package})")
    return path


def ffmpeg_input(source):
    """The words that make ffmpeg read a source, and what it is to be fed."""
    if source.path == "-":
        return ["-i", "-"], pieces(source.file)
    return ["-nostdin", "-i", f"file:{source.path}"], None


class Packets:
    """Packets as a file to be read."""

    def __init__(self, packets):
        self._packets, self._held = packets, bytearray()

    def read1(self, count):
        while not self._held:
            packet = next(self._packets, None)
            if packet is None:
                return b""
            self._held += packet
        data = bytes(self._held[:count])
        del self._held[:count]
        return data


class _Checked(io.RawIOBase):
    """What a program writes; raises where it ended otherwise than well."""

    def __init__(self, pipe, name):
        self._pipe, self._name, self._count = pipe, name, 0

    def readable(self):
        return True

    def readinto(self, buffer):
        data = self._pipe.read1(len(buffer))
        if not data:
            status, text = self._pipe.finish()
            if status or not self._count:
                lines = [line for line in text.strip().splitlines() if not line.startswith(ADVICE)]
                lines = lines or ["nothing comes out of it"]
                raise Refusal(f"{self._name}: ffmpeg says: {lines[-1]}")
        self._count += len(data)
        buffer[: len(data)] = data
        return len(data)


def read_through_ffmpeg(source, words):
    """A file of what ffmpeg writes with these words behind its input."""
    given, fed = ffmpeg_input(source)
    pipe = Pipe([wanted("ffmpeg", f"to open {source.name}"), "-v", "error", *given, *words], fed)
    return io.BufferedReader(_Checked(pipe, source.name), 1 << 16)


class Stream:
    """A Dirac stream as a file, and the container that it came out of, or None."""

    def __init__(self, source):
        self.name, self.container, self.size = source.name, None, source.size
        if source.is_ogg():
            self.container = "Ogg"
            self.file = io.BufferedReader(_Joined(b"", Packets(ogg.read_dirac(source, tell))), 1 << 16)
        elif source.is_container():
            self.container = "a container, by ffmpeg"
            words = ["-map", "0:v:0", "-c", "copy", "-f", "dirac", "-"]
            self.file = read_through_ffmpeg(source, words)
        else:
            self.file = source.file
        if self.container is not None:
            self.size = None
            without = f"{source.name} is a container without a Dirac stream; `dirac encode` makes one of a clip"
            try:
                first = self.file.read(len(units.PREFIX))
            except Refusal as problem:
                raise Refusal(f"{without} ({problem.text})") from None
            if first != units.PREFIX:
                raise Refusal(without)
            self.file = io.BufferedReader(_Joined(first, self.file), 1 << 16)
        self.read, self.read1 = self.file.read, self.file.read1


def open_stream(path):
    """The Dirac stream of a file; what is no container is taken as it is, but y4m and other clips are refused."""
    source = Source(path)
    if not source.first:
        raise Refusal(f"{source.name} is empty: no Dirac stream")
    if source.is_y4m():
        raise Refusal(f"{source.name} is y4m, not a Dirac stream; `dirac encode` makes one of it")
    return Stream(source)
