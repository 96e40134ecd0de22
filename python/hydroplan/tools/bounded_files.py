"""Files that are read whole: regular ones alone, of at most so many bytes, so that no device and no pipe is read without an end.

Outside the proved core. What is refused is an OSError whose words name what is wrong, as those of the system do.
"""
from __future__ import annotations

import errno
import os
import stat
from typing import Union

# a problem file with decimals, scales, bounds, a summary of results, and each CSV file that is read whole
MOST_BYTES = 64 << 20
# a report, which may have the decisions of many scenarios
MOST_REPORT_BYTES = 1 << 30
# study.toml
MOST_TOML_BYTES = 4 << 20

Name = Union[str, "os.PathLike[str]"]


def opened(path: Name) -> int:
    """A descriptor of a regular file, to be closed by the caller; OSError where there is none, or the file is a folder, a pipe or a device."""
    try:
        descriptor = os.open(path, os.O_RDONLY | os.O_NONBLOCK | os.O_CLOEXEC)
    except ValueError:
        raise _refused(errno.EINVAL, "no name of a file", path) from None
    kind = os.fstat(descriptor).st_mode
    if stat.S_ISREG(kind):
        return descriptor
    os.close(descriptor)
    raise _refused(errno.EISDIR, os.strerror(errno.EISDIR), path) if stat.S_ISDIR(kind) else _refused(errno.EINVAL, "no regular file", path)


def whole_file(path: Name, most: int = MOST_BYTES) -> bytes:
    """The bytes of a regular file; OSError where it cannot be read, is none, or has more than `most` bytes."""
    with open(opened(path), "rb") as file:
        data = file.read(most + 1)
    if len(data) > most:
        raise _refused(errno.EFBIG, f"longer than {most:,} bytes", path)
    return data


def is_utf8(path: Name) -> bool:
    """Whether a name is in UTF-8, as the program takes names."""
    try:
        os.fsencode(path).decode("utf-8")
    except UnicodeDecodeError:
        return False
    return True


def _refused(number: int, words: str, path: Name) -> OSError:
    return OSError(number, words, os.fspath(path))
