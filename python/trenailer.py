"""Trenailer from Python: the five-byte calculator arithmetic of the ZX Spectrum.

A number is five bytes. A stack is a bytearray of at most 16,000 bytes, in which number i is the bytes 5i to 5i + 4, and a depth, how
many numbers there are; the last is the top. `Stack` keeps the two together:

    >>> stack = Stack()
    >>> stack.push(whole(6)), stack.push(whole(2)), stack.operate(Literal.DIVIDE)
    (0, 0, 0)
    >>> stack.view().hex(" ")
    '82 40 00 00 00'
    >>> stack.cell()
    Cell(kind=3, refused=None, value=3.0)

A recording is bytes, 16 for each step of a count: what was done, and what a machine said to it (include/trenailer.h has the layout).
A replay does the steps again from depth 0 on, and finds the first record that differs:

    >>> recording = bytes.fromhex(
    ...     "0000 0100 0000060000 00000000000000"  # 6 is pushed: report 0, depth 1
    ...     "1b00 0100 0000060000 00000000000000"  # and negated, and the top is said to be 6 still
    ... )
    >>> replayed = stack.replay(recording)
    >>> replayed.count, replayed.field.name
    (1, 'TOP')
    >>> stack.cell().value
    -6.0

A literal or a run is done as the shipped ROM does it, or as the mended edition does where that is named (include/trenailer.h has what
differs). The last digit of a tenth is a C there and a D here:

    >>> stack.push(whole(1)), stack.push(whole(10)), stack.operate(Literal.DIVIDE, edition=Edition.MENDED)
    (0, 0, 0)
    >>> stack.view().hex(" ")
    '7d 4c cc cc cd'

`operate`, `push`, `run`, `view`, `cell` and `replay` are the same on a bytearray and a depth of your own, as the C interface has them.
Every call takes any bytes, any depth and any literal. What it can't do it refuses by a report (`Report`), and a refusal changes nothing.

`leading_zeros` needs no stack: of a number of 32 bits it is the number of places by which a sum is shifted before it is stored:

    >>> leading_zeros(255), leading_zeros(0)
    (24, 32)

The calls are those of the shared library, libtrenailer.so. It is looked for by the environment variable TRENAILER_LIBRARY, which is
its path; then where `trenailer install` and `trenailer library` put it; then among the system's libraries.
"""

import ctypes
import ctypes.util
import os
from enum import IntEnum
from pathlib import Path
from typing import NamedTuple, Optional, Tuple

__version__ = "0.1.0"

NUMBER_SIZE = 5
STACK_MAX = 16_000
DEPTH_MAX = 3_200
LITERALS_MAX = 60_000
RECORD_SIZE = 16
RECORDING_MAX = 64_000


class Literal(IntEnum):
    """The eleven literals."""

    EXCHANGE = 1
    DELETE = 2
    SUBTRACT = 3
    MULTIPLY = 4
    DIVIDE = 5
    ADD = 15
    NEGATE = 27
    INT = 39
    DUPLICATE = 49
    TRUNCATE = 58
    RE_STACK = 61


class Report(IntEnum):
    """What a call answers: 0 where it is done, else why it is refused."""

    DONE = 0
    OVER_LIMITS = 1
    TOO_FEW = 2
    MALFORMED = 3
    NO_ROOM = 4
    UNKNOWN_LITERAL = 5
    TOO_BIG = 6
    NOT_A_RECORDING = 8
    UNKNOWN_EDITION = 12


class Edition(IntEnum):
    """The editions of the ROM. Where none is named it is the shipped one."""

    SHIPPED = 0
    MENDED = 1


# The kinds of a cell.
REFUSED, BLANK, ODD, VALUE = range(4)


class Cell(NamedTuple):
    """A display cell. `refused` is the report of a refusal and `value` the top's exact value; each is None in the other kinds."""

    kind: int
    refused: Optional[int] = None
    value: Optional[float] = None


class Field(IntEnum):
    """What a replay compares of each record, in this order. NONE: all agree."""

    NONE = 0
    REPORT = 1
    DEPTH = 2
    TOP = 3


class Replayed(NamedTuple):
    """What a replay answers. `report` is 0, or 1 or 8 where it is refused, and then all else is 0. `field` is the first that differs, and
    `count` the number, from 0, of its record; where all agree it is how many there are. `depth` is the depth after it."""

    report: int
    count: int
    field: Field
    depth: int


def _path() -> str:
    named = os.environ.get("TRENAILER_LIBRARY")
    if named:
        return named
    here = Path(__file__).resolve().parent
    # This file is PREFIX/share/trenailer/python/trenailer.py where it is installed, and python/trenailer.py in the repository.
    if here.parts[-3:] == ("share", "trenailer", "python"):
        path = here.parents[2] / "lib/libtrenailer.so.0"
    else:
        path = here.parent / "target/sharedlib/libtrenailer.so"
    if path.is_file():
        return str(path)
    found = ctypes.util.find_library("trenailer")
    if found:
        return found
    raise ImportError(
        "there is no libtrenailer.so. In the repository, ./trenailer library builds it and ./trenailer install PREFIX installs it; "
        "one that stands elsewhere is named by the environment variable TRENAILER_LIBRARY"
    )


def _load() -> ctypes.PyDLL:
    byte, size = ctypes.c_uint8, ctypes.c_size_t
    bytes_, size_at, byte_at = ctypes.c_void_p, ctypes.POINTER(size), ctypes.POINTER(byte)
    # A call is short, and nothing else may write its stack meanwhile: PyDLL lets no other thread of Python run.
    library = ctypes.PyDLL(_path())
    for name, answer, arguments in (
        ("operate", byte, (bytes_, size, size_at, byte)),
        ("operate_in", byte, (byte, bytes_, size, size_at, byte)),
        ("push", byte, (bytes_, size, size_at, bytes_, size)),
        ("run", byte, (bytes_, size, size_at, bytes_, size, size_at)),
        ("run_in", byte, (byte, bytes_, size, size_at, bytes_, size, size_at)),
        ("view", size, (bytes_, size, size, size_at)),
        ("cell", byte, (byte, bytes_, size, size, byte_at, ctypes.POINTER(ctypes.c_double))),
        ("replay", byte, (bytes_, size, bytes_, size, size_at, byte_at, size_at)),
        ("leading_zeros", byte, (ctypes.c_uint32,)),
    ):
        call = getattr(library, "trenailer_" + name)
        call.restype, call.argtypes = answer, arguments
    return library


_library = _load()


# A number that C's type can't hold would be cut down to another without a word.
def _byte(n: int) -> int:
    if not 0 <= n <= 255:
        raise ValueError(f"{n} is not a byte")
    return n


def _word(n: int) -> int:
    if not 0 <= n < 1 << 32:
        raise ValueError(f"{n} is not a number of 32 bits")
    return n


def _size(n: int) -> ctypes.c_size_t:
    if not 0 <= n < 1 << 8 * ctypes.sizeof(ctypes.c_size_t):
        raise ValueError(f"{n} is not a size")
    return ctypes.c_size_t(n)


def _edition(n: int) -> int:
    if n not in (Edition.SHIPPED, Edition.MENDED):
        raise ValueError(f"{n} is not an edition")
    return n


# A copy, so that nothing overlaps the stack. Of a number alone, bytes would make that many zeros.
def _bytes(given: bytes) -> bytes:
    if isinstance(given, int):
        raise TypeError(f"{given} is a number, and bytes are wanted")
    return bytes(given)


def _lent(stack: bytearray) -> ctypes.Array:
    return (ctypes.c_uint8 * len(stack)).from_buffer(stack)


def operate(stack: bytearray, depth: int, literal: int, *, edition: Optional[int] = None) -> Tuple[int, int]:
    """Does one literal on the stack, in place. Answers the report and the new depth, which is the old one where it is refused."""
    after = _size(depth)
    given = (_lent(stack), len(stack), after, _byte(literal))
    if edition is None:
        report = _library.trenailer_operate(*given)
    else:
        report = _library.trenailer_operate_in(_edition(edition), *given)
    return report, after.value


def push(stack: bytearray, depth: int, number: bytes) -> Tuple[int, int]:
    """Pushes a number of five bytes. Answers the report and the new depth."""
    after = _size(depth)
    number = _bytes(number)
    report = _library.trenailer_push(_lent(stack), len(stack), after, number, len(number))
    return report, after.value


def run(stack: bytearray, depth: int, literals: bytes, *, edition: Optional[int] = None) -> Tuple[int, int, int]:
    """Does literals in turn, up to the first that is refused. Answers its report, or 0, then how many were done, and the new depth."""
    after, position = _size(depth), ctypes.c_size_t()
    literals = _bytes(literals)
    given = (_lent(stack), len(stack), after, literals, len(literals), position)
    if edition is None:
        report = _library.trenailer_run(*given)
    else:
        report = _library.trenailer_run_in(_edition(edition), *given)
    return report, position.value, after.value


def view(stack: bytearray, depth: int) -> bytes:
    """The top number's five bytes. None, b"", at depth 0 and where the limits are exceeded (report 1)."""
    start = ctypes.c_size_t()
    length = _library.trenailer_view(_lent(stack), len(stack), _size(depth), start)
    return bytes(stack[start.value : start.value + length])


def cell(report: int, stack: bytearray, depth: int) -> Cell:
    """The display cell of a report and the stack after it: refused, blank, odd, or the top's value."""
    refused, value = ctypes.c_uint8(), ctypes.c_double()
    kind = _library.trenailer_cell(_byte(report), _lent(stack), len(stack), _size(depth), refused, value)
    return Cell(kind, refused.value if kind == REFUSED else None, value.value if kind == VALUE else None)


def replay(stack: bytearray, recording: bytes) -> Replayed:
    """Does the steps of a recording on the stack, from depth 0 on, up to the first whose record differs from what came of it."""
    count, field, after = ctypes.c_size_t(), ctypes.c_uint8(), ctypes.c_size_t()
    recording = _bytes(recording)
    report = _library.trenailer_replay(_lent(stack), len(stack), recording, len(recording), count, field, after)
    return Replayed(report, count.value, Field(field.value), after.value)


def leading_zeros(t: int) -> int:
    """How many leading zeros a number of 32 bits has: 32 where it is 0, else the one z for which 2**31 <= t * 2**z < 2**32."""
    return _library.trenailer_leading_zeros(_word(t))


def whole(n: int) -> bytes:
    """The short number of a whole number from -65,535 to 65,535."""
    if not -65_535 <= n <= 65_535:
        raise ValueError(f"{n} has no short number")
    return bytes((0, 255 if n < 0 else 0)) + (n % 65_536).to_bytes(2, "little") + bytes(1)


class Stack:
    """A stack with its depth, and the report of the last call. `bytes` and `depth` may be read and set at will: every call takes any."""

    def __init__(self, size: int = STACK_MAX):
        self.bytes = bytearray(size)
        self.depth = 0
        self.report: int = Report.DONE

    def operate(self, literal: int, *, edition: Optional[int] = None) -> int:
        """Does one literal, and answers the report."""
        self.report, self.depth = operate(self.bytes, self.depth, literal, edition=edition)
        return self.report

    def push(self, number: bytes) -> int:
        """Pushes five bytes, and answers the report."""
        self.report, self.depth = push(self.bytes, self.depth, number)
        return self.report

    def run(self, literals: bytes, *, edition: Optional[int] = None) -> Tuple[int, int]:
        """Does literals in turn up to the first that is refused, and answers the report and how many were done."""
        self.report, position, self.depth = run(self.bytes, self.depth, literals, edition=edition)
        return self.report, position

    def replay(self, recording: bytes) -> Replayed:
        """Does the steps of a recording from depth 0 on, up to the first whose record differs. Where it is refused the depth stays."""
        replayed = replay(self.bytes, recording)
        self.report = replayed.report
        if replayed.report == Report.DONE:
            self.depth = replayed.depth
        return replayed

    def view(self) -> bytes:
        """The top's five bytes, or none."""
        return view(self.bytes, self.depth)

    def cell(self, report: Optional[int] = None) -> Cell:
        """The display cell of this stack and the last call's report, or the report given: where that was refused it holds no value."""
        return cell(self.report if report is None else report, self.bytes, self.depth)
