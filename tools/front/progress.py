"""A line on a terminal that tells how far a long run is."""
import sys
import time

EVERY = 0.2
WIDTH = 24


def size_text(count):
    for unit in ("bytes", "kB", "MB"):
        if count < 1000:
            return f"{count:.3g} {unit}" if unit != "bytes" else f"{count} bytes"
        count /= 1000
    return f"{count:.3g} GB"


def time_text(seconds):
    minutes, seconds = divmod(int(seconds), 60)
    return f"{minutes // 60}:{minutes % 60:02}:{seconds:02}" if minutes >= 60 else f"{minutes}:{seconds:02}"


class Progress:
    """Shows itself where standard error is a terminal, at most five times a second."""

    def __init__(self, total=None, stream=None, clock=time.monotonic):
        self.total, self.stream, self.clock = total, stream or sys.stderr, clock
        self.is_shown = self.stream.isatty()
        self.begin, self.last, self.longest = clock(), 0.0, 0

    def line(self, pictures, count):
        elapsed = max(self.clock() - self.begin, 1e-6)
        speed = pictures / elapsed
        text = f"{pictures} pictures, {speed:.1f} a second, {size_text(count)}"
        if self.total:
            done = min(pictures / self.total, 1)
            bar = "#" * int(WIDTH * done)
            text = f"[{bar:-<{WIDTH}}] {pictures} of {self.total} pictures, {speed:.1f} a second, {size_text(count)}"
            if 0 < pictures:
                text += f", {time_text(max(0, self.total - pictures) / speed)} left"
        return text

    def show(self, pictures, count):
        now = self.clock()
        if not self.is_shown or now - self.last < EVERY:
            return
        self.last = now
        line = self.line(pictures, count)
        self.longest = max(self.longest, len(line))
        self.stream.write(f"\r{line:<{self.longest}}")
        self.stream.flush()

    def clear(self):
        if self.is_shown and self.longest:
            self.stream.write(f"\r{'':<{self.longest}}\r")
            self.stream.flush()
