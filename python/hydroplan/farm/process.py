"""A process that ends with whoever began it, and what it says. Imports little, since processes begin before most modules are there."""
from __future__ import annotations

import fcntl
import os
import time
from _signal import SIGKILL, SIGPIPE, SIGXFSZ

TYPE_CHECKING = False
if TYPE_CHECKING:
    from typing import BinaryIO, Dict, List, Optional, Sequence, Tuple

SET_PIPE_SIZE, GET_PIPE_SIZE = 1031, 1032  # F_SETPIPE_SZ and F_GETPIPE_SZ of Linux
PIPE_BYTES = 1 << 20
LOOKS_EVERY = 0.002
_found: Dict[Tuple[str, str], Optional[str]] = {}


def found_on(path: str, name: str) -> Optional[str]:
    """The place of a command, looked for as a shell does; `shutil`, which does that too, takes a while to import."""
    if (path, name) not in _found:
        places = (os.path.join(folder or os.curdir, name) for folder in path.split(os.pathsep))
        _found[path, name] = next((it for it in places if os.path.isfile(it) and os.access(it, os.X_OK)), None)
    return _found[path, name]


def command(program: object, words: Sequence[str]) -> List[str]:
    """The command line of a run that the kernel kills where its parent dies, as far as the machine has setpriv (util-linux)."""
    setpriv = found_on(os.environ.get("PATH", os.defpath), "setpriv")
    prefix = [] if setpriv is None else [setpriv, "--pdeathsig", "KILL"]
    return [*prefix, str(program), *words]


def unnamed(data: bytes = b"") -> BinaryIO:
    """A file with these bytes in the memory of the machine, open at its front, for what a program reads or says."""
    try:
        file: BinaryIO = os.fdopen(os.memfd_create("hydroplan"), "w+b")
    except (AttributeError, OSError):  # another system
        import tempfile
        file = tempfile.TemporaryFile()
    file.write(data)
    file.seek(0)
    return file


class Process:
    """A process that reads from a file and whose output is dropped, or else one with a pipe to it and one from it, which never wait."""

    def __init__(self, words: Sequence[str], source: Optional[BinaryIO] = None) -> None:
        self.returncode: Optional[int] = None
        self._spent = 0.0
        self.input = self.output = -1
        """The ends of the pipes."""
        self.holds = 0
        """How many bytes the pipe of the output takes before anybody reads."""
        self._errors = unnamed()
        if source is None:
            self._begin_with_pipes(words)
        else:
            self._spawn(words, source.fileno(), None)

    def _begin_with_pipes(self, words: Sequence[str]) -> None:
        """Begins with pipes, of which the process has the other ends alone."""
        read, self.input = map(_above, os.pipe())
        self.output, written = map(_above, os.pipe())
        try:
            for pipe in (self.input, self.output):
                os.set_blocking(pipe, False)
                self.holds = widen(pipe)
            self._spawn(words, read, written)
        except OSError:
            self.close()
            raise
        finally:
            os.close(read)
            os.close(written)

    def _spawn(self, words: Sequence[str], source: int, target: Optional[int]) -> None:
        """Begins with these files as input and output."""
        out = (os.POSIX_SPAWN_OPEN, 1, os.devnull, os.O_WRONLY, 0) if target is None else (os.POSIX_SPAWN_DUP2, target, 1)
        actions = [(os.POSIX_SPAWN_DUP2, source, 0), out, (os.POSIX_SPAWN_DUP2, self._errors.fileno(), 2)]
        self.pid = os.posix_spawn(words[0], words, os.environ, file_actions=actions, setsigdef=[SIGPIPE, SIGXFSZ])

    def poll(self) -> Optional[int]:
        """How it ended, below 0 the signal that ended it; none where it goes on."""
        return self._ended(os.WNOHANG)

    def wait(self) -> int:
        """Waits for the end; how it ended."""
        return self._ended(0) or 0

    def _ended(self, how: int) -> Optional[int]:
        if self.returncode is None:
            ended, status, used = os.wait4(self.pid, how)
            self.returncode = os.waitstatus_to_exitcode(status) if ended else None
            self._spent = used.ru_utime + used.ru_stime
        return self.returncode

    def spent(self) -> float:
        """The processor seconds that it took so far, as far as the system says that of one that goes on."""
        if self.poll() is None:
            try:
                with open(f"/proc/{self.pid}/stat", "rb") as file:
                    fields = file.read().rpartition(b")")[2].split()
                return (int(fields[11]) + int(fields[12])) / os.sysconf("SC_CLK_TCK")
            except (OSError, ValueError, IndexError):
                pass
        return self._spent

    def ends_within(self, seconds: float) -> bool:
        """Whether it ends within so many seconds, where it is about to."""
        until = time.monotonic() + seconds
        while self.poll() is None:
            if time.monotonic() > until:
                return False
            time.sleep(LOOKS_EVERY)
        return True

    def kill(self) -> None:
        """Kills it where it goes on, and does not wait for its end."""
        if self.poll() is None:
            os.kill(self.pid, SIGKILL)

    def said(self, most: int) -> str:
        """The front of what it said on standard error."""
        self._errors.seek(0)
        return self._errors.read(most).decode("utf-8", "replace")

    def end(self) -> None:
        """Ends it, and closes its files."""
        self.kill()
        self.wait()
        self.close()

    def __del__(self) -> None:
        """Closes the files of one that nobody ended: it ends with its input."""
        try:
            self.close()
        except (AttributeError, TypeError, OSError):
            pass  # it never began, or Python itself is at its end

    def close(self) -> None:
        """Closes its files."""
        self._errors.close()
        pipes, self.input, self.output = (self.input, self.output), -1, -1
        for pipe in pipes:
            if pipe >= 0:
                os.close(pipe)


def widen(pipe: int) -> int:
    """Has a pipe take more, where the system allows for that; how many bytes it takes, as far as that is known."""
    for asked, size in ((SET_PIPE_SIZE, PIPE_BYTES), (GET_PIPE_SIZE, 0)):
        try:
            return fcntl.fcntl(pipe, asked, size)
        except OSError:
            pass
    return 0


def _above(file: int) -> int:
    """The same file above those of standard input, output and error, in case one of these is closed."""
    if file > 2:
        return file
    other = fcntl.fcntl(file, fcntl.F_DUPFD_CLOEXEC, 3)
    os.close(file)
    return other
