"""What is made of pictures: y4m, raw pictures, PNG files, sums, and through ffmpeg any other clip."""
import hashlib
import pathlib
import subprocess

from . import png, y4m
from .formats import colour_filter
from .outputs import Output
from .refusal import Refusal
from .sources import wanted


class RawSink:
    # whether the pictures may change their size on the way
    takes_any = True

    def __init__(self, path, _):
        self.output = Output(path)

    def take(self, picture):
        self.output.write(picture)

    def keep(self):
        self.output.keep()

    def close(self):
        self.output.__exit__()


class Y4mSink(RawSink):
    takes_any = False

    def __init__(self, path, video):
        super().__init__(path, video)
        self.output.write(y4m.spell_header(video))

    def take(self, picture):
        self.output.write(y4m.FRAME + picture)


class SumSink:
    """A line a picture, as tools/md5_of_pictures.py writes them."""

    takes_any = True

    def __init__(self, _, __):
        self.count, self.whole = 0, hashlib.md5()

    def take(self, picture):
        self.whole.update(picture)
        print(self.count, hashlib.md5(picture).hexdigest())
        self.count += 1

    def keep(self):
        print("all", self.whole.hexdigest())

    def close(self):
        pass


class PngSink:
    """A file a picture, with its number in front of the ending."""

    takes_any = False

    def __init__(self, path, video):
        self.path, self.video, self.count = pathlib.Path(path), video, 0

    def take(self, picture):
        name = self.path.with_name(f"{self.path.stem}-{self.count:04}.png")
        with Output(str(name)) as output:
            output.write(png.spell(list(png.rgb_rows(picture, self.video))))
            output.keep()
        self.count += 1

    def keep(self):
        pass

    def close(self):
        pass


class CommandSink:
    """A program that is fed y4m."""

    takes_any = False

    def __init__(self, name, command, video):
        self.name = name
        self.process = subprocess.Popen(command, stdin=subprocess.PIPE, stderr=subprocess.PIPE)
        self._write(y4m.spell_header(video))

    def _write(self, data):
        try:
            self.process.stdin.write(data)
        except BrokenPipeError:
            self.end()
            raise

    def take(self, picture):
        self._write(y4m.FRAME + picture)

    def end(self):
        """Waits for its end; what it says is a refusal where that isn't well."""
        try:
            _, text = self.process.communicate()
        except BrokenPipeError:
            text = b""
        if self.process.returncode:
            lines = text.decode(errors="replace").strip().splitlines() or ["it ended without a word"]
            raise Refusal(f"{self.name} says: {lines[-1]}")

    def keep(self):
        self.end()

    def close(self):
        if self.process.poll() is None:
            self.process.terminate()
            self.process.wait()


class FfmpegSink(CommandSink):
    """Any clip that ffmpeg makes of y4m; by its name's ending it knows which."""

    def __init__(self, path, video):
        command = wanted("ffmpeg", f"to write {path}")
        words = ["-v", "error", "-y", "-f", "yuv4mpegpipe", "-i", "-", *colour_filter(video), f"file:{path}"]
        super().__init__(f"{path}: ffmpeg", [command, *words], video)


def sink_for(path):
    """The kind of sink that a name asks for."""
    ending = pathlib.Path(path).suffix.lower()
    return {"": Y4mSink, ".y4m": Y4mSink, ".yuv": RawSink, ".png": PngSink}.get(ending, FfmpegSink)
