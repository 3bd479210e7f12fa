"""Reads files and streams up to a number of bytes, so that one without an end takes no more memory than another."""

import errno
from pathlib import Path
from typing import BinaryIO

# The most bytes of a file or of standard input that a tool reads.
MOST = 64 << 20
PIECE = 1 << 20


def too_long(name: str | None, most: int) -> OSError:
    """The fault of a file that has more bytes than are read."""
    return OSError(errno.EFBIG, f"it has more than {most} bytes, the most that is read", name)


def read_stream(stream: BinaryIO, name: str | None, most: int = MOST) -> bytes:
    """All that an open stream of bytes has. The name goes into faults.

    Raises OSError if it can't be read, or has more than so many bytes."""
    parts, left = [], most
    while part := stream.read(min(left + 1, PIECE)):
        if len(part) > left:
            raise too_long(name, most)
        parts.append(part)
        left -= len(part)
    return b"".join(parts)


def read_file(file: Path | str, most: int = MOST) -> bytes:
    """All that a file has.

    Raises OSError if it can't be read, or has more than so many bytes."""
    with open(file, "rb", buffering=0) as stream:
        return read_stream(stream, str(file), most)
