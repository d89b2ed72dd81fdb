"""Where bytes go: standard output, or a file that has its name only once it is whole."""
import os
import stat
import sys

from . import matroska
from .refusal import Refusal
from .sources import wanted

MATROSKA = ".mkv"
CONTAINER_ENDINGS = (".webm", ".mp4", ".mov", ".avi", ".ts", ".ogg", ".ogv", ".nut", ".y4m")


def check_apart(target, sources):
    """Refuses to write over what is read."""
    for path in sources:
        if path != "-" and target != "-" and os.path.exists(path) and os.path.exists(target):
            if os.path.samefile(path, target):
                raise Refusal(f"{target} is the file that is read: give -o another name")


def check_stream_name(path):
    """Refuses a name that promises a container that isn't written."""
    if path.lower().endswith(CONTAINER_ENDINGS):
        raise Refusal(
            f"{path}: what is written is a stream, a .drc file, or Matroska, an .mkv file; docs/PLAYERS.md has other"
            " ways under Into a container",
            2,
        )
    if path.lower().endswith(MATROSKA):
        wanted("mkvmerge", f"to write {path}", "mkvtoolnix")


class Output:
    """A file in the making. Without a `keep` it is taken away again."""

    def __init__(self, path):
        self.path, self.part, self.bytes = path, None, 0
        try:
            if path == "-":
                if sys.stdout.isatty():
                    raise Refusal("these bytes are nothing for a terminal: name a file with -o, or pipe them on")
                self.file = sys.stdout.buffer
            elif os.path.exists(path) and not stat.S_ISREG(os.stat(path).st_mode):
                self.file = open(path, "wb")
            else:
                self.part = f"{path}.part"
                self.file = open(self.part, "wb")
        except (OSError, AttributeError) as error:
            raise Refusal(f"{path}: {getattr(error, 'strerror', None) or 'standard output is closed'}") from None

    def write(self, data):
        self.bytes += len(data)
        try:
            self.file.write(data)
        except BrokenPipeError:
            raise
        except OSError as error:
            raise Refusal(f"{self.path}: {error.strerror}") from None

    def __enter__(self):
        return self

    def keep(self):
        """Gives the file its name."""
        try:
            self.file.flush()
            if self.part:
                self.file.close()
                os.replace(self.part, self.path)
                self.part = None
        except BrokenPipeError:
            raise
        except OSError as error:
            raise Refusal(f"{self.path}: {error.strerror}") from None

    def __exit__(self, *_):
        if self.path != "-":
            try:
                self.file.close()
            except OSError:
                # told by `write` or `keep`; what isn't kept is taken away
                pass
        if self.part:
            os.unlink(self.part)


class MatroskaOutput(Output):
    """A Matroska file with the stream that is written here, in which each picture has its time."""

    def __init__(self, path):
        super().__init__(f"{path}.drc")
        self.target = path

    def keep(self):
        try:
            self.file.close()
        except OSError as error:
            raise Refusal(f"{self.path}: {error.strerror}") from None
        matroska.wrap(self.part, self.target)
        os.unlink(self.part)
        self.part = None


def stream_output(path):
    """Where a stream goes."""
    return MatroskaOutput(path) if path.lower().endswith(MATROSKA) else Output(path)
