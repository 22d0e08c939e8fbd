"""How far a tool is with the files that it reads: a line on standard error, where that is a terminal, from the first second on. What the tools of this folder
share; not a tool itself."""
import io
import os
import stat
import sys
import threading
import time

FIRST, EACH = 1.0, 0.5


class Part:
    """A file that is read, or something else that takes its time. Of a regular file that is read by its descriptor the system says how far; of others who
    reads them says it."""

    def __init__(self, name, descriptor=None, size=None):
        self.name, self.begun, self.lines, self.place = name, time.monotonic(), None, None
        self.descriptor, self.size = None, size
        if descriptor is not None:
            found = os.fstat(descriptor)
            if stat.S_ISREG(found.st_mode) and found.st_size:
                self.descriptor, self.size = descriptor, found.st_size

    def text(self):
        place = self.place
        if self.descriptor is not None:
            try:
                place = os.lseek(self.descriptor, 0, os.SEEK_CUR)
            except OSError:
                self.descriptor = None
        if place is not None and self.size:
            return f"{self.name}: {min(100, 100 * place // self.size)} %"
        since = f"{time.monotonic() - self.begun:.0f} s"
        return f"{self.name}: {self.lines:,} lines, {since}" if self.lines is not None else f"{self.name}: {since}"


class Progress:
    """The line at the foot of the terminal, which a thread writes anew."""

    def __init__(self):
        self.tool, self.part, self.is_shown, self.terminal = "", None, False, None
        self.lock = threading.Lock()

    def begin(self, tool):
        """Where standard error is a terminal, whatever is written from here on stands above the line."""
        if sys.stderr is None or not sys.stderr.isatty():
            return
        self.tool, self.terminal = tool, sys.stderr
        sys.stderr = Above(self, sys.stderr)
        threading.Thread(target=self._run, daemon=True).start()

    def reading(self, name, descriptor=None, size=None):
        """From here on this is read."""
        self.part = Part(name, descriptor, size)
        return self.part

    def clear(self):
        if self.terminal is None:
            return
        with self.lock:
            if self.is_shown:
                self.is_shown = False
                self._put("\r\x1b[K")

    def _put(self, text):
        try:
            os.write(self.terminal.fileno(), text.encode("utf-8", "replace"))
        except OSError:
            pass

    def _run(self):
        time.sleep(FIRST)
        while True:
            part = self.part
            if part is not None:
                with self.lock:
                    self.is_shown = True
                    self._put(f"\r\x1b[K{self.tool}: {part.text()}")
            time.sleep(EACH)


class Above(io.TextIOBase):
    """Standard error, whose text stands above the line."""

    def __init__(self, progress, stream):
        self.progress, self.stream = progress, stream

    def write(self, text):
        self.progress.clear()
        self.stream.write(text)
        self.stream.flush()
        return len(text)

    def flush(self):
        self.stream.flush()

    def fileno(self):
        return self.stream.fileno()

    def isatty(self):
        return True


progress = Progress()
