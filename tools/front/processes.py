"""Other programs, fed and read through pipes at the same time."""
import subprocess
import tempfile
import threading

PIECE = 1 << 16


def pieces(file):
    """What a file holds, in pieces as they come."""
    read = getattr(file, "read1", file.read)
    while True:
        piece = read(PIECE)
        if not piece:
            return
        yield piece


class Pipe:
    """A program whose standard output is read here, while a thread of its own feeds it these pieces."""

    def __init__(self, words, fed=None, passed=(), environment=None):
        self.errors = tempfile.TemporaryFile()
        stdin = subprocess.DEVNULL if fed is None else subprocess.PIPE
        how = {"stderr": self.errors, "pass_fds": passed, "env": environment}
        self.process = subprocess.Popen(words, stdin=stdin, stdout=subprocess.PIPE, **how)
        self.output, self.problem, self.thread = self.process.stdout, None, None
        self.read, self.read1, self.readline = self.output.read, self.output.read1, self.output.readline
        if fed is not None:
            self.thread = threading.Thread(target=self._feed, args=(fed,), daemon=True)
            self.thread.start()

    def _feed(self, fed):
        try:
            for piece in fed:
                self.process.stdin.write(piece)
            self.process.stdin.close()
        except BrokenPipeError:
            pass
        except Exception as problem:  # told by `finish`, in the thread that asks
            self.problem = problem
        finally:
            try:
                self.process.stdin.close()
            except OSError:
                pass

    def finish(self):
        """The status and what was written to standard error; raises what went wrong where it was fed."""
        for _ in pieces(self.output):
            pass
        status = self.process.wait()
        if self.problem is not None:
            self.thread.join()
            raise self.problem
        self.errors.seek(0)
        return status, self.errors.read().decode(errors="replace")

    def stop(self):
        """Ends the program before it is through."""
        if self.process.poll() is None:
            self.process.terminate()
        self.output.close()
        self.process.wait()
