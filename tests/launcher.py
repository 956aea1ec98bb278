"""Tries ./trenailer as a user does: sheets with slips, files that can't be read or written, a terminal, an installed tree, the examples.

    python3 tests/launcher.py

It builds what it needs first, by ./trenailer install into a temporary folder, which needs rt and a C compiler. An example is passed over
where its compiler is missing.
"""

import os
import pty
import select
import shutil
import subprocess
import sys
import tempfile
import unittest
from pathlib import Path

ROOT = Path(__file__).resolve().parent.parent
LAUNCHER = str(ROOT / "trenailer")

# 1,000 votes by 4, with the letter O for a zero.
SLIP = b"push 1000   # votes\n00 00 O4 00 00\ndivide\nint\n"
STOPPED = b"0 1 00 00 E8 03 00\n? line 2\n"
WHY = (b"calc: line 2: 00 00 O4 00 00: a line is five bytes in hex as 00 00 04 00 00, push N, literal N, a literal's name, or edition NAME;"
       b" nothing from this line on was done\n")


def setUpModule():
    """A folder for everything, and an installed tree in it. Their names have blanks, as people's folders do."""
    global scratch, here, prefix
    scratch = tempfile.TemporaryDirectory(prefix="trenailer ")
    here = Path(scratch.name)
    prefix = here / "installed tree"
    if subprocess.run([LAUNCHER, "install", prefix]).returncode != 0:
        sys.exit("launcher: nothing could be installed; trenailer says why above")
    for name, sheet in (("slip.txt", SLIP), ("one.txt", b"push 1\n")):
        (here / name).write_bytes(sheet)


def tearDownModule():
    scratch.cleanup()


def shell(command, sheet=b""):
    """The status of a command, and what it wrote to standard output and standard error. In it $T is the launcher, $P the tree."""
    known = {**os.environ, "T": LAUNCHER, "P": str(prefix), "ROOT": str(ROOT), "PKG_CONFIG_PATH": str(prefix / "lib/pkgconfig")}
    done = subprocess.run(["bash", "-c", command], input=sheet, cwd=here, env=known, stdout=subprocess.PIPE, stderr=subprocess.PIPE)
    return done.returncode, done.stdout, done.stderr


def calc(sheet):
    return shell('"$T" calc', sheet)


def typed(*parts, program="calc"):
    """The status of a program at a terminal, and all that was seen there. Each part is typed when nothing more is written."""
    child, terminal = pty.fork()
    if child == 0:
        os.execv(LAUNCHER, [LAUNCHER, program])
    seen = b""
    for part in (None, *parts, None):
        if part is not None:
            os.write(terminal, part)
        while select.select([terminal], [], [], 0.5)[0]:
            try:
                seen += os.read(terminal, 4096)
            except OSError:  # it has ended
                break
    os.close(terminal)
    status = os.waitpid(child, 0)[1]
    return os.WEXITSTATUS(status) if os.WIFEXITED(status) else -1, seen.replace(b"\r\n", b"\n")


class Sheets(unittest.TestCase):
    def test_every_line_read(self):
        self.assertEqual(calc(b"push 6\npush 4\ndivide\n"), (0, b"0 1 00 00 06 00 00\n0 2 00 00 04 00 00\n0 1 81 40 00 00 00\n", b""))

    def test_a_refused_step_is_an_answer(self):
        self.assertEqual(calc(b"divide\nliteral 6\npush 0\n"), (0, b"2 0 -\n5 0 -\n0 1 00 00 00 00 00\n", b""))

    def test_a_slip_ends_it(self):
        self.assertEqual(calc(SLIP), (1, STOPPED, WHY))

    def test_a_number_alone(self):
        status, out, err = calc(b"push 5\n2\nadd\n")
        self.assertEqual((status, out), (1, b"0 1 00 00 05 00 00\n? line 2\n"))
        self.assertIn(b"line 2: 2: a number alone is not read: write push N to enter it, or literal N for a literal;", err)

    def test_what_does_no_harm(self):
        answers = b"0 1 00 00 03 00 00\n0 1 00 FF FD FF 00\n"
        for sheet in (b"push 3\r\nnegate\r\n", b"push 3\rnegate", b"\xEF\xBB\xBFpush 3\nnegate", b"push 3" + b" " * 300 + b"\n\n\t\nnegate # " + b"x" * 70_000):
            self.assertEqual(calc(sheet), (0, answers, b""), sheet[:20])


class Editions(unittest.TestCase):
    def test_it_holds_from_its_line_on(self):
        steps = b"push 1\npush 10\ndivide\n"
        status, out, err = shell('"$T" calc', steps + b"edition mended # the branch's\n" + steps + b"edition shipped\n" + steps)
        self.assertEqual((status, out.splitlines()[2::3], err), (0, [b"0 1 7D 4C CC CC CC", b"0 2 7D 4C CC CC CD", b"0 3 7D 4C CC CC CC"], b""))

    def test_one_that_there_is_not(self):
        for line in (b"edition mendet", b"edition Mended", b"edition 1"):
            said = b"calc: line 1: " + line + b": edition takes shipped or mended; nothing from this line on was done\n"
            self.assertEqual(shell('"$T" calc', line + b"\npush 1\n"), (1, b"? line 1\n", said))
        status, out, err = shell('"$T" calc', b"edition\n")
        self.assertEqual((status, out, err.count(b"edition NAME")), (1, b"? line 1\n", 1))


class Recordings(unittest.TestCase):
    def record(self, sheet):
        return shell('"$T" record', sheet)

    def test_a_sheet_recorded_and_replayed(self):
        status, recording, err = self.record(b"push 10\npush 4\ndivide   # 2.5\ndivide\n")
        self.assertEqual((status, err, len(recording)), (0, b"", 4 * 16))
        self.assertEqual(recording[32:48], bytes((5, 0, 1, 0, 0x82, 0x20, 0, 0, 0)) + bytes(7))
        self.assertEqual(shell('"$T" replay', recording), (0, b"agree 4\n", b""))
        lines = (b"0 push 0 1 00 00 0A 00 00\n1 push 0 2 00 00 04 00 00\n2 divide 0 1 82 20 00 00 00\n", b"3 divide 2 1 82 20 00 00 00\n")
        self.assertEqual(shell('"$T" show', recording), (0, lines[0] + lines[1] + b"agree 4\n", b""))
        moved = recording[:40] + b"\1" + recording[41:]
        self.assertEqual(shell('"$T" replay', moved), (1, b"differ 2 top\n", b""))
        shown = lines[0].replace(b"20 00 00 00\n", b"20 00 00 01\n") + b"  this machine: 0 1 82 20 00 00 00\ndiffer 2 top\n"
        self.assertEqual(shell('"$T" show', moved), (1, shown, b""))

    def test_what_is_no_recording(self):
        one = self.record(b"push 1\n")[1]
        for recording in (one[:15], one + b"\0", one[:15] + b"\1", bytes(64_001), bytes(200_000), b"push 1\n"):
            for program in ("replay", "show"):
                self.assertEqual(shell(f'"$T" {program}', recording), (2, b"refused 8\n", b""))

    def test_an_empty_one(self):
        self.assertEqual(self.record(b"# nothing yet\n\n"), (0, b"", b""))
        self.assertEqual(shell('"$T" replay', b""), (0, b"agree 0\n", b""))

    def test_lines_that_are_not_recorded(self):
        for sheet, said in ((SLIP, b"record: line 2: 00 00 O4 00 00: a line is five bytes in hex"), (b"push 1\n\nliteral 0 # none\n", b"record: line 3: literal 0: "),
                            (b"edition shipped\npush 1\nedition mended\n", b"record: line 3: edition mended: recordings are of the shipped edition"),
                            (b"push 1\ndelete\n" * 2_000 + b"# that was all\nadd\n", b"record: line 4002: add: a recording holds 4000 records")):
            status, out, err = self.record(sheet)
            self.assertEqual((status, out, err.count(b"\n")), (1, b"", 1), err)
            self.assertTrue(err.startswith(said) and err.endswith(b"; no recording was written\n"), err)

    def test_as_many_as_it_holds(self):
        status, recording, err = self.record(b"push 1\ndelete\n" * 2_000 + b"# that was all\n")
        self.assertEqual((status, len(recording), err), (0, 64_000, b""))
        self.assertEqual(shell('"$T" replay', recording), (0, b"agree 4000\n", b""))
        status, out, err = shell('"$T" show', recording)
        self.assertEqual((status, out.count(b"\n"), out[-11:], err), (0, 4_001, b"agree 4000\n", b""))

    def test_in_parts(self):
        recording = (ROOT / "examples/count.rec").read_bytes()
        parts = "; ".join(f"tail -c +{i + 1} \"$ROOT/examples/count.rec\" | head -c 7; sleep 0.01" for i in range(0, len(recording), 7))
        self.assertEqual(shell(f'{{ {parts}; }} | "$T" replay'), (0, b"agree 18\n", b""))

    def test_what_can_not_be_read_or_written(self):
        for command in ('"$T" replay < /', '"$T" show < /', '"$T" record < /', '"$T" replay <&-', '"$T" record <&-'):
            status, out, err = shell(command)
            self.assertEqual((status, out, err.count(b"\n")), (1, b"", 1), command)
            self.assertIn(b": standard input cannot be read; ", err)
        for command in ('"$T" replay "$ROOT/examples/count.rec" > /dev/full', '"$T" show "$ROOT/examples/count.rec" >&-', '"$T" record one.txt > /dev/full'):
            status, out, err = shell(command)
            self.assertEqual((status, out, err.count(b"\n")), (1, b"", 1), command)
            self.assertIn(b": standard output cannot be written", err)

    def test_examples(self):
        self.assertEqual(shell('"$T" record "$ROOT/examples/count.txt"'), (0, (ROOT / "examples/count.rec").read_bytes(), b""))
        for launcher in ('"$T"', '"$P/bin/trenailer"'):
            self.assertEqual(shell(launcher + ' replay "$ROOT/examples/count.rec"'), (0, b"agree 18\n", b""))
            self.assertEqual(shell(launcher + ' replay "$ROOT/examples/moved.rec"'), (1, b"differ 15 top\n", b""))
            status, out, err = shell(launcher + ' show "$ROOT/examples/moved.rec"')
            self.assertEqual((status, out.splitlines()[-3:]), (1, [b"15 subtract 0 2 00 00 76 00 00", b"  this machine: 0 2 00 00 75 00 00", b"differ 15 top"]))

    def test_at_a_terminal(self):
        for program, said in (("replay", b"which nobody types"), ("show", b"which nobody types"), ("record", b"a recording is no text for a terminal")):
            status, seen = typed(program=program)
            self.assertEqual(status, 2, seen)
            self.assertIn(said, seen)


class Files(unittest.TestCase):
    def test_a_file_is_as_standard_input(self):
        for command in ('"$T" calc slip.txt', '"$T" calc < slip.txt', 'cat slip.txt | "$T" calc', '"$T" calc <(cat slip.txt)',
                        'ln -s slip.txt "a link"; "$T" calc "a link"', 'ln -s "$T" tren; ./tren calc slip.txt', 'cp slip.txt ./-x; "$T" calc -x'):
            self.assertEqual(shell(command), (1, STOPPED, WHY), command)

    def test_what_can_not_be_written(self):
        said = b"calc: standard output cannot be written; nothing more was done\n"
        for command in ('"$T" calc one.txt > /dev/full', '"$T" calc one.txt >&-', 'printf "push 1\\n\\npush 2\\n" | "$T" calc > /dev/full'):
            self.assertEqual(shell(command), (1, b"", said), command)
        self.assertEqual(shell('"$T" vectors > /dev/full', b"o0 5: 1:02\n\no0 5: 1:02\n"), (1, b"", b"vectors: standard output cannot be written\n"))

    def test_what_can_not_be_read(self):
        for command in ('"$T" calc < /', '"$T" calc <&-'):
            self.assertEqual(shell(command), (1, b"", b"calc: standard input cannot be read\n"), command)

    def test_nobody_reads_standard_error(self):
        for command in ('"$T" calc slip.txt 2>&-', '"$T" calc slip.txt 2>/dev/null', '"$T" calc slip.txt 2>/dev/full'):
            self.assertEqual(shell(command), (1, STOPPED, b""), command)

    def test_what_is_not_run(self):
        for command, word in (('"$T" calc none.txt', b"there is no file none.txt"), ('"$T" calc .', b". is a folder"), ('"$T" calc a b', b"too many words"),
                              ('"$T" clac', b"there is no program clac; there are: calc "), ('"$T" install', b"usage"), ('"$T" library x', b"usage")):
            status, out, err = shell(command)
            self.assertEqual((status, out), (2, b""), command)
            self.assertTrue(err.startswith(b"trenailer: " + word), err)

    def test_answers_into_the_sheet(self):
        for command in ('"$T" calc same.txt >> same.txt', '"$T" calc < same.txt >> same.txt', '"$T" calc ./same.txt > same.txt'):
            (here / "same.txt").write_bytes(SLIP)
            status, out, err = shell(command)
            self.assertEqual((status, out), (2, b""), command)
            self.assertIn(b"what calc reads is the file that its answers are written to", err)
            self.assertEqual((here / "same.txt").read_bytes(), SLIP if ">>" in command else b"")

    def test_what_there_is(self):
        status, out, err = shell('"$T"')
        self.assertEqual((status, err), (0, b""))
        self.assertIn(b"\n  calc ", out)
        for command in ('"$T" --help', '"$T" -h', '"$T" install --help'):
            self.assertEqual(shell(command), (0, out, b""), command)
        for program, words in (("calc", (b"push N", b"multiply", b"re-stack")), ("vectors", (b"LENGTH:HEX*",)), ("replay", (b"differ 3 depth",)),
                               ("record", (b"recording",)), ("show", (b"this machine",))):
            status, more, err = shell(f'"$T" {program} --help')
            self.assertEqual((status, err), (0, b""))
            for word in words:
                self.assertIn(word, more)
            self.assertEqual(shell(f'"$P/bin/trenailer" {program} -h'), (0, more, b""))
        status, out, err = shell('"$T" --version')
        self.assertRegex(out, rb"^trenailer [0-9]+\.[0-9]+\.[0-9]+\n$")


class Terminal(unittest.TestCase):
    def test_typed_again(self):
        status, seen = typed(b"push 6\n", b"2\n", b"push 2\n", b"divide\n", b"\x04")
        self.assertEqual(status, 0, seen)
        self.assertIn(b"\n? line 2\nline 2: 2: a number alone is not read", seen)
        self.assertIn(b"; type it again\npush 2\n0 2 00 00 02 00 00\ndivide\n0 1 82 40 00 00 00\n", seen)

    def test_not_typed_again(self):
        for last in ((b"2\n", b"\x04"), (b"2", b"\x04", b"\x04")):
            status, seen = typed(b"push 6\n", *last)
            self.assertEqual(status, 1, seen)
            self.assertTrue(seen.endswith(b"\ncalc: the last line could not be read, and was not typed again\n"), seen)


class Installed(unittest.TestCase):
    def quota(self, compiler, command):
        if not shutil.which(compiler):
            self.skipTest(f"there is no {compiler}")
        status, out, err = shell(command)
        self.assertEqual((status, out), (0, b"143 00 00 8F 00 00\n"), err)

    def test_without_repository_and_toolchain(self):
        command = 'ln -s "$P/bin/trenailer" "in stalled"; env -i PATH=/usr/bin:/bin "./in stalled" calc'
        self.assertEqual(shell(command, SLIP), (1, STOPPED, WHY))
        self.assertEqual(shell('"$P/bin/trenailer" --version')[1], shell('"$T" --version')[1])

    def test_folders_that_are_refused(self):
        for word, why in ((ROOT, b"is the repository"), ("--prefix=/tmp", b"looks like an option"), ("", b"is empty"), ("slip.txt", b"is no folder")):
            status, out, err = shell(f'"$T" install "{word}"')
            self.assertEqual((status, out), (2, b""))
            self.assertIn(why, err)
        self.assertTrue((ROOT / "include/trenailer.h").is_file())

    # eval, since pkg-config writes the blanks of a path with backslashes.
    def test_quota_in_c(self):
        self.quota("pkg-config", 'eval cc -std=c99 -Wall -Wextra -pedantic -Werror \'"$ROOT/examples/quota.c"\' $(pkg-config --cflags --libs trenailer) -o c && ./c')

    def test_quota_in_rust(self):
        self.quota("rustc", 'rustc -D warnings "$ROOT/examples/quota.rs" -L "$P/lib" -l static=trenailer -o rust && ./rust')

    def test_quota_in_python(self):
        self.quota("python3", 'PYTHONPATH="$P/share/trenailer/python" python3 "$ROOT/examples/quota.py"')

    def test_quota_of_a_sheet(self):
        status, out, err = shell('"$P/bin/trenailer" calc "$ROOT/examples/quota.txt"')
        self.assertEqual((status, out.splitlines()[-1], err), (0, b"0 1 00 00 8F 00 00", b""))

    def test_transfer_of_a_sheet(self):
        status, out, err = shell('"$P/bin/trenailer" calc "$ROOT/examples/transfer.txt"')
        self.assertEqual((status, out.splitlines()[-1], err), (0, b"0 1 00 00 0A 00 00", b""))

    def test_mended_edition_of_a_sheet(self):
        status, out, err = shell('"$P/bin/trenailer" calc "$ROOT/examples/mended.txt"')
        lines = out.splitlines()
        self.assertEqual((status, lines[2], lines[5], lines[6], lines[-2], lines[-1], err),
                         (0, b"0 1 7D 4C CC CC CD", b"0 2 91 80 00 00 00", b"0 2 91 80 00 00 00", b"0 3 00 FF 00 00 00", b"3 3 00 FF 00 00 00", b""))

    def test_header_in_other_languages(self):
        for compiler, words in (("cc", "-std=c99 -xc"), ("c++", "-std=c++11 -xc++")):
            if shutil.which(compiler):
                command = f'{compiler} -Wall -Wextra -pedantic -Werror -fsyntax-only {words} -I "$P/include" -'
                self.assertEqual(shell(command, b'#include "trenailer.h"\n'), (0, b"", b""))


if __name__ == "__main__":
    unittest.main()
