"""Holds python/trenailer.py to the second program's vectors, to the header, and to what README.md and its own text say.

    python3 python/test_trenailer.py

It builds the library first, if need be, by ./trenailer library, which needs rt. With the environment variable TRENAILER_LIBRARY it
takes that shared library as it is.
"""

import doctest
import os
import re
import struct
import subprocess
import sys
import unittest
import unittest.mock
from pathlib import Path

ROOT = Path(__file__).resolve().parent.parent

if not os.environ.get("TRENAILER_LIBRARY") and subprocess.run([ROOT / "trenailer", "library"]).returncode != 0:
    sys.exit("test_trenailer: the library could not be built; trenailer says why above")

sys.path.insert(0, str(ROOT / "python"))
import trenailer  # noqa: E402


# The format of crates/vectors, as the head of its src/main.rt has it. A line over LINE bytes, with its line feed, is no case.
LINE = 65_536
STACK, BYTES = 17_000, 61_000
LONGER = {b"y": 65_000, b"R": BYTES + 1}
# Of these kinds there are just so many bytes.
EXACTLY = {b"o": 1, b"c": 1, b"O": 2, b"z": 4}
CASE = re.compile(rb"([oprcyORz])([0-9]+) ([0-9]+):((?:[0-9A-Fa-f]{2})*)(\*?) ([0-9]+):((?:[0-9A-Fa-f]{2})*)(\*?)")


def given(length, digits, star, most):
    """The bytes of LENGTH:HEX or LENGTH:HEX*, or None where that can't be read."""
    count, some = int(length), bytes.fromhex(digits.decode())
    if count > most or len(some) > count or (star and not some):
        return None
    if star:
        return (some * (count // len(some) + 1))[:count]
    return some.ljust(count, b"\0")


def told(some):
    """LENGTH:HEX, with the zeros at the end left out."""
    return f"{len(some)}:{some.rstrip(bytes(1)).hex().upper()}"


def cell_told(cell):
    if cell.kind == trenailer.REFUSED:
        return f"R{cell.refused}"
    if cell.kind == trenailer.VALUE:
        return "V%d" % struct.unpack("<Q", struct.pack("<d", cell.value))
    return {trenailer.BLANK: "B0", trenailer.ODD: "O0"}[cell.kind]


def any_edition():
    """Lets through to the library a number that is no edition's, which the module refuses by itself."""
    return unittest.mock.patch.object(trenailer, "_edition", int)


def answer(line):
    """What the library answers to a line of cases, without its line feed."""
    case = CASE.fullmatch(line) if len(line) < LINE else None
    if not case:
        return "?"
    kind, depth = case[1], int(case[2])
    stack, some = given(*case.group(3, 4, 5), STACK), given(*case.group(6, 7, 8), LONGER.get(kind, BYTES))
    if depth >= 1 << 64 or stack is None or some is None or len(some) != EXACTLY.get(kind, len(some)) or (kind == b"R" and not some):
        return "?"
    stack, position, field = bytearray(stack), 0, ""
    if kind == b"o":
        report, depth = trenailer.operate(stack, depth, some[0])
    elif kind == b"p":
        report, depth = trenailer.push(stack, depth, some)
    elif kind == b"r":
        report, position, depth = trenailer.run(stack, depth, some)
    elif kind == b"O":
        with any_edition():
            report, depth = trenailer.operate(stack, depth, some[1], edition=some[0])
    elif kind == b"R":
        with any_edition():
            report, position, depth = trenailer.run(stack, depth, some[1:], edition=some[0])
    elif kind == b"y":
        report, position, compared, depth = trenailer.replay(stack, some)
        field = f"{int(compared)} "
    elif kind == b"z":
        report, position = 0, trenailer.leading_zeros(int.from_bytes(some, "big"))
    else:
        report = some[0]
    view, cell = trenailer.view(stack, depth), trenailer.cell(report, stack, depth)
    return f"{field}{report} {position} {depth} {told(stack)} {told(view)} {cell_told(cell)}"


class Vectors(unittest.TestCase):
    def test_every_case(self):
        cases = (ROOT / "crates/vectors/stdin").read_bytes().split(b"\n")
        cases = [line for line in cases if line and not line.startswith(b"#")]
        answers = (ROOT / "crates/vectors/stdout").read_text().splitlines()
        self.assertEqual(len(cases), len(answers))
        self.assertGreater(len(cases), 30_000)
        for case, wanted in zip(cases, answers):
            got = answer(case)
            if got != wanted:
                self.fail(f"{case[:200]}\n  answered {got[:200]}\n  and not  {wanted[:200]}")
        print(f"{len(cases)} cases answered as they should be", file=sys.stderr)

    def test_a_wrong_answer_is_seen(self):
        self.assertEqual(answer(b"o2 10:81000000008420000000 1:05"), "0 0 1 10:7D4CCCCCCC8420 5:7D4CCCCCCC V4591870180065280000")
        self.assertNotEqual(answer(b"o2 10:81000000008420000000 1:0F"), "0 0 1 10:7D4CCCCCCC8420 5:7D4CCCCCCC V4591870180065280000")

    def test_forms_of_a_case(self):
        self.assertEqual(given(b"5", b"8240", b"", STACK), bytes.fromhex("8240000000"))
        self.assertEqual(given(b"5", b"8240", b"*", STACK), bytes.fromhex("8240824082"))
        self.assertEqual(answer(b"c1 5:8240 1:00"), "0 0 1 5:8240 5:8240 V4613937818241073152")
        self.assertEqual(answer(b"c1 5:8240 1:06"), "6 0 1 5:8240 5:8240 R6")
        self.assertEqual(answer(b"y0 5: 16:000001008240"), "0 0 1 1 5:8240 5:8240 V4613937818241073152")
        self.assertEqual(answer(b"y7 5: 16:000002008240"), "2 0 0 1 5:8240 5:8240 V4613937818241073152")
        self.assertEqual(answer(b"y0 5: 65000:"), "0 8 0 0 5: 0: R8")
        self.assertEqual(answer(b"z1 5:8240 4:0000FF"), "0 16 1 5:8240 5:8240 V4613937818241073152")
        self.assertEqual(answer(b"z2 5:8240 4:"), "0 32 2 5:8240 0: R1")
        for line in (b"x1 5: 1:05", b"o1 5: 2:0505", b"c1 5: 0:", b"o1 5:0 1:05", b"o1 1:0000 1:05", b"o1 5:* 1:05", b"o1 17001: 1:05",
                     b"z1 5: 3:000001", b"z1 5: 5:0000000001", b"p0 5: 61001:", b"y0 5: 65001:", b"o18446744073709551616 5: 1:05", b"o1 5: 1:05 ", b"o" + b"0" * LINE + b" 5: 1:05"):
            self.assertEqual(answer(line), "?", line[:40])


class Texts(unittest.TestCase):
    def test_module(self):
        failed, tried = doctest.testmod(trenailer)
        self.assertGreater(tried, 0)
        self.assertEqual(failed, 0)

    def test_readme(self):
        failed, tried = doctest.testfile(str(ROOT / "README.md"), module_relative=False)
        self.assertGreater(tried, 0)
        self.assertEqual(failed, 0)

    def test_header(self):
        header = (ROOT / "include/trenailer.h").read_text()
        have = dict(re.findall(r"\bTRENAILER_(\w+) =? ?\"?([0-9.]+)\b", header))
        wanted = {literal.name: literal for literal in trenailer.Literal}
        wanted.update({"REPORT_" + report.name: report for report in trenailer.Report})
        wanted.update({edition.name: edition for edition in trenailer.Edition})
        wanted.update({name: getattr(trenailer, name) for name in ("REFUSED", "BLANK", "ODD", "VALUE")})
        wanted.update({"FIELD_" + field.name: field for field in trenailer.Field})
        sizes = ("NUMBER_SIZE", "STACK_MAX", "DEPTH_MAX", "LITERALS_MAX", "RECORD_SIZE", "RECORDING_MAX")
        wanted.update({name: getattr(trenailer, name) for name in sizes})
        wanted.update(zip(("VERSION_MAJOR", "VERSION_MINOR", "VERSION_PATCH"), trenailer.__version__.split(".")))
        self.assertEqual(have.pop("VERSION"), trenailer.__version__)
        self.assertEqual({name: int(n) for name, n in have.items()}, {name: int(n) for name, n in wanted.items()})


class Calls(unittest.TestCase):
    def test_nothing_lent(self):
        self.assertEqual(trenailer.operate(bytearray(), 0, trenailer.Literal.DELETE), (trenailer.Report.TOO_FEW, 0))
        self.assertEqual(trenailer.push(bytearray(), 0, b""), (trenailer.Report.NO_ROOM, 0))
        self.assertEqual(trenailer.run(bytearray(), 0, b""), (trenailer.Report.DONE, 0, 0))
        self.assertEqual(trenailer.view(bytearray(), 0), b"")
        self.assertEqual(trenailer.cell(0, bytearray(), 0), trenailer.Cell(trenailer.BLANK))
        self.assertEqual(trenailer.replay(bytearray(), b""), (trenailer.Report.DONE, 0, trenailer.Field.NONE, 0))

    def test_a_stack_pushed_onto_itself(self):
        stack = bytearray.fromhex("0000060000")
        self.assertEqual(trenailer.push(stack, 0, stack), (trenailer.Report.DONE, 1))
        self.assertEqual(stack, bytes.fromhex("0000060000"))

    def test_what_c_can_not_hold(self):
        stack = bytearray(10)
        for depth in (-1, 1 << 64):
            self.assertRaises(ValueError, trenailer.operate, stack, depth, 2)
            self.assertRaises(ValueError, trenailer.push, stack, depth, bytes(5))
            self.assertRaises(ValueError, trenailer.run, stack, depth, b"")
            self.assertRaises(ValueError, trenailer.view, stack, depth)
            self.assertRaises(ValueError, trenailer.cell, 0, stack, depth)
        for byte in (-1, 256):
            self.assertRaises(ValueError, trenailer.operate, stack, 0, byte)
            self.assertRaises(ValueError, trenailer.cell, byte, stack, 0)
        for word in (-1, 1 << 32, 1 << 64, float("inf"), float("nan")):
            self.assertRaises(ValueError, trenailer.leading_zeros, word)
        for edition in (-1, 2, 12, 255, 256, "mended"):
            self.assertRaises(ValueError, trenailer.operate, stack, 0, 2, edition=edition)
            self.assertRaises(ValueError, trenailer.run, stack, 0, b"", edition=edition)
        self.assertRaises(TypeError, trenailer.push, stack, 0, 5)
        self.assertRaises(TypeError, trenailer.replay, stack, 16)
        self.assertRaises(TypeError, trenailer.replay, bytes(10), b"")
        self.assertRaises(TypeError, trenailer.operate, bytes(10), 0, 2)
        self.assertEqual(stack, bytes(10))

    def test_whole(self):
        for n, number in ((0, "0000000000"), (1000, "0000e80300"), (-1, "00ffffff00"), (-65_535, "00ff010000"), (65_535, "0000ffff00")):
            self.assertEqual(trenailer.whole(n).hex(), number)
            stack = trenailer.Stack(5)
            self.assertEqual(stack.push(trenailer.whole(n)), trenailer.Report.DONE)
            self.assertEqual(stack.cell(), trenailer.Cell(trenailer.VALUE, None, float(n)))
        self.assertRaises(ValueError, trenailer.whole, 65_536)
        self.assertRaises(ValueError, trenailer.whole, -65_536)

    def test_leading_zeros(self):
        for t, zeros in ((0, 32), (1, 31), (2, 30), (3, 30), (0xFF, 24), (0xFFFF, 16), (0x10000, 15), (0x7FFFFFFF, 1), (0x80000000, 0), (0xFFFFFFFF, 0)):
            self.assertEqual(trenailer.leading_zeros(t), zeros)
        for z in range(32):
            for t in (1 << 31 - z, (1 << 32 - z) - 1):
                self.assertEqual(trenailer.leading_zeros(t), z)
        self.assertEqual(trenailer.leading_zeros(True), 31)
        for t in (None, "1", b"1"):
            self.assertRaises(TypeError, trenailer.leading_zeros, t)
        self.assertRaises(trenailer.ctypes.ArgumentError, trenailer.leading_zeros, 1.5)

    def test_a_run_of_document_01(self):
        stack = trenailer.Stack(10)
        stack.bytes[:], stack.depth = bytes.fromhex("00000600000000020000"), 2
        self.assertEqual(stack.run([5, 49, 49]), (trenailer.Report.NO_ROOM, 2))
        self.assertEqual((stack.depth, stack.bytes.hex()), (2, "82400000008240000000"))
        self.assertEqual(stack.cell(), trenailer.Cell(trenailer.REFUSED, 4))
        self.assertEqual(stack.cell(trenailer.Report.DONE), trenailer.Cell(trenailer.VALUE, None, 3.0))

    def test_editions(self):
        tenth, below = bytes.fromhex("8100000000 8420000000"), bytes.fromhex("00ff180200 00ffe8fd00")
        for edition in (None, trenailer.Edition.SHIPPED, trenailer.Edition.MENDED):
            quotient, total = ("7d4ccccccd", "9180000000") if edition == trenailer.Edition.MENDED else ("7d4ccccccc", "00ff000000")
            for literal, operands, result in ((5, tenth, quotient), (15, below, total)):
                stack = bytearray(operands)
                self.assertEqual(trenailer.operate(stack, 2, literal, edition=edition), (trenailer.Report.DONE, 1))
                self.assertEqual(stack, bytes.fromhex(result) + operands[5:])
                stack = bytearray(operands)
                self.assertEqual(trenailer.run(stack, 2, [literal, 61, 1], edition=edition), (trenailer.Report.TOO_FEW, 2, 1))
                self.assertEqual(stack[:5].hex(), "0000000000" if result == "00ff000000" else result)

    def test_an_odd_operand(self):
        for literal in (3, 4, 15, 27, 39, 58, 61):
            stack = bytearray.fromhex("0000010000 00ff00005a")
            self.assertEqual(trenailer.operate(stack, 2, literal, edition=trenailer.Edition.MENDED), (trenailer.Report.MALFORMED, 2))
            self.assertEqual(stack.hex(), "000001000000ff00005a")
            self.assertEqual(trenailer.operate(stack, 2, literal)[0], trenailer.Report.DONE)
        stack = trenailer.Stack(10)
        self.assertEqual(stack.push(bytes.fromhex("00ff00005a")), trenailer.Report.DONE)
        self.assertEqual(stack.run([49, 1, 2, 27], edition=trenailer.Edition.MENDED), (trenailer.Report.MALFORMED, 3))
        self.assertEqual((stack.depth, stack.cell()), (1, trenailer.Cell(trenailer.REFUSED, 3)))
        self.assertEqual(stack.cell(trenailer.Report.DONE), trenailer.Cell(trenailer.ODD))
        self.assertEqual(stack.operate(27, edition=trenailer.Edition.SHIPPED), trenailer.Report.DONE)
        self.assertEqual(stack.view().hex(), "0000000000")

    def test_a_replay(self):
        agreed = (ROOT / "examples/count.rec").read_bytes()
        moved = (ROOT / "examples/moved.rec").read_bytes()
        self.assertEqual(len(agreed), 18 * trenailer.RECORD_SIZE)
        stack = trenailer.Stack()
        stack.push(trenailer.whole(7)), stack.push(trenailer.whole(8))
        self.assertEqual(stack.replay(agreed), (trenailer.Report.DONE, 18, trenailer.Field.NONE, 1))
        self.assertEqual((stack.depth, stack.view().hex(), stack.cell().value), (1, "0000950100", 405.0))
        self.assertEqual(stack.replay(moved), (trenailer.Report.DONE, 15, trenailer.Field.TOP, 2))
        self.assertEqual((stack.depth, stack.cell().value), (2, 117.0))
        # A refusal changes nothing.
        before = bytes(stack.bytes)
        self.assertEqual(stack.replay(agreed[:-1]), (trenailer.Report.NOT_A_RECORDING, 0, trenailer.Field.NONE, 0))
        self.assertEqual((stack.depth, stack.bytes, stack.cell()), (2, before, trenailer.Cell(trenailer.REFUSED, 8)))
        self.assertEqual(stack.replay(agreed[:9] + b"\1" + agreed[10:]).report, trenailer.Report.NOT_A_RECORDING)
        longest = bytes(trenailer.RECORDING_MAX)
        self.assertEqual(stack.replay(longest + bytes(16)).report, trenailer.Report.NOT_A_RECORDING)
        self.assertEqual(stack.replay(longest), (trenailer.Report.DONE, 0, trenailer.Field.DEPTH, 1))
        long = trenailer.Stack(trenailer.STACK_MAX + 1)
        self.assertEqual(long.replay(b"?"), (trenailer.Report.OVER_LIMITS, 0, trenailer.Field.NONE, 0))

    def test_a_replay_of_its_own_stack(self):
        stack = bytearray.fromhex("0000 0100 0000060000 00000000000000")
        self.assertEqual(trenailer.replay(stack, stack), (trenailer.Report.DONE, 1, trenailer.Field.NONE, 1))
        self.assertEqual(stack, bytes.fromhex("0000060000 0006 000000000000000000"))

    def test_a_cell_after_a_refusal(self):
        stack = trenailer.Stack()
        self.assertEqual(stack.cell(), trenailer.Cell(trenailer.BLANK))
        stack.push(trenailer.whole(7)), stack.push(trenailer.whole(0))
        self.assertEqual(stack.operate(trenailer.Literal.DIVIDE), trenailer.Report.TOO_BIG)
        self.assertEqual(stack.cell(), trenailer.Cell(trenailer.REFUSED, 6))
        self.assertEqual(stack.push(b""), trenailer.Report.MALFORMED)
        self.assertEqual(stack.cell(), trenailer.Cell(trenailer.REFUSED, 3))
        self.assertEqual(stack.operate(trenailer.Literal.DELETE), trenailer.Report.DONE)
        self.assertEqual(stack.cell(), trenailer.Cell(trenailer.VALUE, None, 7.0))


if __name__ == "__main__":
    unittest.main()
