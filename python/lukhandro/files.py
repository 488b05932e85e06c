"""Files as the command reads and writes them: `-` is standard input or output, and a file is written beside and renamed."""
from __future__ import annotations

import os
import sys
import tempfile
from pathlib import Path


class Usage(Exception):
    """The command cannot be carried out as it was typed (exit status 2)."""


class Fault(Exception):
    """Something is refused or wrong (exit status 1)."""


def why(error: OSError) -> str:
    """What the system says of an error, without its number."""
    return (error.strerror or str(error)).lower()


def read(path: str) -> bytes:
    """The bytes of a file, or of standard input."""
    try:
        if path == "-":
            return sys.stdin.buffer.read()
        with open(path, "rb") as file:
            return file.read()
    except OSError as error:
        raise Usage(f"cannot read {path}: {why(error)}") from None


def write(path: str, data: bytes) -> None:
    """Writes a file whole or not at all: beside its place, and then renamed. `-` is standard output."""
    if path == "-":
        sys.stdout.flush()
        sys.stdout.buffer.write(data)
        sys.stdout.buffer.flush()
        return
    place = Path(os.path.realpath(path))
    try:
        if place.exists() and not place.is_file():  # a device or a pipe has no place beside it
            with open(place, "wb") as file:
                file.write(data)
            return
        mode = place.stat().st_mode & 0o7777 if place.exists() else 0o666 & ~_umask()
        handle, beside = tempfile.mkstemp(prefix="." + place.name + ".", dir=place.parent)
        try:
            with os.fdopen(handle, "wb") as file:
                file.write(data)
                file.flush()
                os.fsync(file.fileno())
            os.chmod(beside, mode)
            os.replace(beside, place)
        except BaseException:
            os.unlink(beside)
            raise
    except OSError as error:
        raise Usage(f"cannot write {path}: {why(error)}") from None


def _umask() -> int:
    """What the user keeps from others in new files."""
    mask = os.umask(0)
    os.umask(mask)
    return mask


def is_model_file(data: bytes) -> bool:
    """The bytes are those of a model file and no text: a header has zero bytes, a text none."""
    return b"\0" in data[:24]


def decoded(data: bytes, source: str) -> str:
    """The text of a file, which is UTF-8."""
    try:
        return data.decode("utf-8")
    except UnicodeDecodeError as error:
        line = data.count(b"\n", 0, error.start) + 1
        column = error.start - (data.rfind(b"\n", 0, error.start) + 1) + 1
        raise Fault(f"{source}:{line}:{column}: this is no text in UTF-8") from None
