"""The proved library, loaded: its structs and its calls, declared as include/lukhandro.h declares them.

A test parses the header and holds every line of this page to it.
"""
from __future__ import annotations

import ctypes
import os
import platform
from pathlib import Path
from typing import NamedTuple

u8, u16, u32 = ctypes.c_uint8, ctypes.c_uint16, ctypes.c_uint32
i16, i32, i64, size = ctypes.c_int16, ctypes.c_int32, ctypes.c_int64, ctypes.c_size_t

NAME = "liblukhandro.so"
INTERFACE = 1  # the number of the interface that this page declares, for libraries that tell theirs


class Session(ctypes.Structure):
    """The session record."""

    _fields_ = [("kept", u32), ("evaluations", u32), ("blanks", u32)]


class Outcome(ctypes.Structure):
    """What build, trial, keep, taking back and writing answer."""

    _fields_ = [("number", u32), ("place", u32), ("evaluations", u32)]


class ReadOutcome(ctypes.Structure):
    """What reading answers."""

    _fields_ = [("number", u32), ("place", u32), ("n", u32), ("m", u32), ("e", u32)]


class SalvageOutcome(ctypes.Structure):
    """What salvage answers."""

    _fields_ = [("number", u32), ("place", u32), ("length", size), ("rows", size), ("values", size)]


class MoveOutcome(ctypes.Structure):
    """What a move from one version to the other answers."""

    _fields_ = [("number", u32), ("place", u32), ("length", size)]


class FiguresOutcome(ctypes.Structure):
    """What a batch answers."""

    _fields_ = [("number", u32), ("place", u32), ("blank", u32), ("least", i32), ("greatest", i32), ("sum", i64),
                ("first", u32), ("second", u32), ("third", u32)]


class ListOutcome(ctypes.Structure):
    """What the board answers, and both calls on frequencies.txt."""

    _fields_ = [("number", u32), ("place", u32), ("length", size)]


class Part(ctypes.Structure):
    """A part of the entries."""

    _fields_ = [("first", size), ("count", size)]


STRUCTS = {"lukhandro_session": Session, "lukhandro_outcome": Outcome, "lukhandro_read_outcome": ReadOutcome,
           "lukhandro_salvage_outcome": SalvageOutcome, "lukhandro_move_outcome": MoveOutcome,
           "lukhandro_figures_outcome": FiguresOutcome, "lukhandro_list_outcome": ListOutcome, "lukhandro_part": Part}

# The parameters of the calls, in their groups. `kinds:u16[]` is a row that is read, a pointer and its length; `&` marks
# what a call writes.
_COUNTS = "n:size m:size e:size "
_MODEL = "session:&session " + _COUNTS
_TABLES = "kinds:u16[] makes:u16[] params:i32[] firsts:u16[] counts:u16[] vars:u16[] coefs:i16[] "
_FILLED = _TABLES.replace(":", ":&")
_BOUNDS = "lows:i32[] highs:i32[] "
_BUILT = "numbers:u16[] order:u16[] stored:i32[] reader_starts:u16[] reader_places:u16[] "
_CHANGED = _BUILT.replace("stored:i32", "stored:&i32") + "reasons:&u8[] "
_MOVE = "pairs:size move_vars:u16[] move_values:i32[] "
_BYTES = "bytes:u8[] "
_NAMED = "name_places:u32[] name_lengths:u32[] name_doubled:u8[] starts:i32[] ends:i32[] headways:i32[] exacts:u8[] "

CALLS: dict[str, tuple[type[ctypes.Structure], str]] = {
    "lukhandro_build": (Outcome, _MODEL + _TABLES + _BOUNDS + "starts:i32[] " + _BUILT.replace(":", ":&")
                        + "reasons:&u8[] log_sizes:&u16[]"),
    "lukhandro_trial": (Outcome, _MODEL + _TABLES + _BOUNDS + _BUILT + "reasons:u8[] " + _MOVE
                        + "asked:size asked_vars:u16[] route:u32 results:&i32[] trial:&i32[] flags:&u8[] why:&u8[]"),
    "lukhandro_keep": (Outcome, _MODEL + _TABLES + _BOUNDS + _CHANGED + _MOVE
                       + "flags:&u8[] log_sizes:&u16[] log_vars:&u16[] log_values:&i32[]"),
    "lukhandro_take_back": (Outcome, _MODEL + _TABLES + _BOUNDS + _CHANGED
                            + "flags:&u8[] log_sizes:&u16[] log_vars:u16[] log_values:i32[]"),
    "lukhandro_read": (ReadOutcome, _BYTES + "starts:&i32[] " + _FILLED),
    "lukhandro_write": (Outcome, _COUNTS + "starts:i32[] " + _TABLES + "bytes:&u8[]"),
    "lukhandro_salvage": (SalvageOutcome, _BYTES + "file:&u8[] list:&u16[]"),
    "lukhandro_read_bounded": (ReadOutcome, _BYTES + "starts:&i32[] " + _FILLED + "lows:&i32[] highs:&i32[]"),
    "lukhandro_write_bounded": (Outcome, _COUNTS + "starts:i32[] " + _TABLES + _BOUNDS + "bytes:&u8[]"),
    "lukhandro_to_version_2": (MoveOutcome, _BYTES + "file:&u8[]"),
    "lukhandro_to_version_1": (MoveOutcome, _BYTES + "file:&u8[]"),
    "lukhandro_figures": (FiguresOutcome, "session:session " + _COUNTS + _TABLES + _BOUNDS + _BUILT
                          + "moves:size move_pairs:u16[] move_vars:u16[] move_values:i32[] asked:u16 by_number:&u32[]"),
    "lukhandro_merge": (FiguresOutcome, "first:figures second:figures first_by_number:u32[] second_by_number:u32[] by_number:&u32[]"),
    "lukhandro_trials": (Outcome, "session:session " + _COUNTS + _TABLES + _BOUNDS + _BUILT + "reasons:u8[] "
                         + "moves:size move_pairs:u16[] move_vars:u16[] move_values:i32[] asked:size asked_vars:u16[] route:u32 "
                         + "move_numbers:&u32[] move_places:&u32[] move_evaluations:&u32[] results:&i32[] why:&u8[]"),
    "lukhandro_departures": (ListOutcome, "windows:size starts:i32[] ends:i32[] headways:i32[] list:&i32[]"),
    "lukhandro_inputs_of_row": (Part, "m:size e:size firsts:u16[] counts:u16[] vars:u16[] row:size"),
    "lukhandro_frequencies": (ListOutcome, _BYTES + _NAMED.replace(":", ":&") + "lines:&u32[]"),
    "lukhandro_write_frequencies": (ListOutcome, "windows:size text:u8[] " + _NAMED + "bytes:&u8[]"),
}

_TYPES = {"u8": u8, "u16": u16, "u32": u32, "i16": i16, "i32": i32, "size": size, "session": Session,
          "figures": FiguresOutcome}


class Parameter(NamedTuple):
    """A parameter of a call as C has it."""

    name: str
    type: type
    pointer: bool
    written: bool


def parameters(call: str) -> list[Parameter]:
    """The parameters of a call as C has them, a row as its pointer and its length.

    >>> [p.name for p in parameters("lukhandro_to_version_2")]
    ['bytes', 'bytes_length', 'file', 'file_length']
    """
    found = []
    for word in CALLS[call][1].split():
        name, _, kind = word.partition(":")
        written, bare = kind.startswith("&"), kind.lstrip("&").removesuffix("[]")
        row = kind.endswith("[]")
        found.append(Parameter(name, _TYPES[bare], row or bare == "session", written))
        if row:
            found.append(Parameter(name + "_length", size, False, False))
    return found


class Unloadable(Exception):
    """The library cannot be loaded; the message says why and what to do."""


def places() -> list[Path]:
    """Where the library is looked for, in this order: where LUKHANDRO_LIBRARY says, beside this page, in the checkout."""
    named = os.environ.get("LUKHANDRO_LIBRARY")
    if named:
        return [Path(named)]
    here = Path(__file__).resolve().parent
    return [here / NAME, here.parent.parent / "target" / "desk" / NAME]


_loaded: ctypes.CDLL | None = None


def library() -> ctypes.CDLL:
    """The library with its calls declared; loaded once."""
    global _loaded
    if _loaded is None:
        _loaded = _load()
    return _loaded


def _load() -> ctypes.CDLL:
    """Finds and loads the library, or says why that cannot be."""
    where = next((path for path in places() if path.is_file()), None)
    machine = platform.machine()
    if machine not in ("x86_64", "AMD64") or platform.system() != "Linux":
        raise Unloadable(f"the proved library is for x86-64 Linux, and this machine is {machine} {platform.system()}")
    if where is None:
        raise Unloadable("the proved library is not there: " + " or ".join(map(str, places()))
                         + "; run tools/lukhandro once in a checkout, which makes it, or name it in LUKHANDRO_LIBRARY")
    try:
        loaded = ctypes.CDLL(str(where))
        theirs = loaded.lukhandro_interface() if hasattr(loaded, "lukhandro_interface") else INTERFACE
        if theirs != INTERFACE:
            raise Unloadable(f"{where} has the interface {theirs}, and this package is for {INTERFACE}: make both of one checkout")
        for call, (answer, _) in CALLS.items():
            function = getattr(loaded, call)
            function.restype = answer
            function.argtypes = [ctypes.POINTER(p.type) if p.pointer else p.type for p in parameters(call)]
    except (OSError, AttributeError) as why:
        raise Unloadable(f"{where} cannot be used as the proved library: {why}") from None
    return loaded
