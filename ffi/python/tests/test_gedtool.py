"""What the installed package answers, beside the program and by itself.

GEDTOOL_PROGRAM names the program. What is compared with it is skipped where it does not.
"""

from __future__ import annotations

import array
import hashlib
import mmap
import os
import pickle
import subprocess
import sys
import tempfile
import unittest
from concurrent.futures import ThreadPoolExecutor
from pathlib import Path
from unittest import mock

import gedtool

ROOT = Path(__file__).resolve().parents[3]
EXAMPLES = sorted(ROOT.glob("examples/*.ged"))
PROGRAM = os.environ.get("GEDTOOL_PROGRAM")
HEAD = b"0 HEAD\n1 GEDC\n2 VERS 7.0\n"
END = b"0 TRLR\n"
FAMILY_PATH = ROOT / "examples/family-by-one-program.ged"
FAMILY = FAMILY_PATH.read_bytes()


def told(*words: object) -> bytes:
    """What the program writes, or else what it tells."""
    ended = subprocess.run([PROGRAM, *map(str, words)], capture_output=True, check=False)
    return ended.stderr or ended.stdout


def answer_or_fault(call, *data, **settings) -> bytes:
    """What a call answers, as the program would write it."""
    try:
        answer = call(*data, **settings)
    except gedtool.GedtoolError as error:
        return f"{error}\n".encode()
    if call is gedtool.same:
        return b"same\n" if answer else b"different\n"
    if call is gedtool.check:
        return "".join(f"line {line}: {kind}\n" for line, kind in answer).encode() + b"accepted\n"
    if call is gedtool.show:
        return "".join(f"{level} {tag} {kind or '-'}\n" for level, tag, kind in answer).encode()
    return answer


@unittest.skipUnless(PROGRAM, "GEDTOOL_PROGRAM names no program")
class BesideTheProgram(unittest.TestCase):
    """Each example is answered as the program answers it."""

    def test_one_file(self):
        self.assertTrue(EXAMPLES)
        for path in EXAMPLES:
            with self.subTest(path.name):
                self.assertEqual(answer_or_fault(gedtool.lines, path), told("lines", path))
                for name in ("check", "show", "canon"):
                    call = getattr(gedtool, name)
                    self.assertEqual(answer_or_fault(call, path), told(name, path), name)
                    self.assertEqual(answer_or_fault(call, path, strict=True), told(name, "--strict", path), name)
                second = answer_or_fault(gedtool.canon, path.read_bytes(), strict=True, edition=2)
                self.assertEqual(second, told("canon", "--strict", "--second", path))

    def test_two_files(self):
        for one in EXAMPLES:
            for other in EXAMPLES:
                with self.subTest(one=one.name, other=other.name):
                    self.assertEqual(answer_or_fault(gedtool.same, one, other), told("same", one, other))
                    answer = answer_or_fault(gedtool.same, one, other.read_bytes(), strict=True, edition=2)
                    self.assertEqual(answer, told("same", "--strict", "--second", one, other))

    def test_digest(self):
        self.assertEqual(gedtool.digest(FAMILY), hashlib.sha256(told("canon", FAMILY_PATH)).hexdigest())

    def test_explanations(self):
        for number in range(1, 30):
            fault = gedtool.GedtoolError(number)
            head, meaning, cause = told("explain", number).decode().split("\n")[:3]
            self.assertEqual(head, f"fault {number}: {fault.name}")
            self.assertEqual(f"  meaning: {fault.explanation}", f"{meaning} {cause.replace('  cause: ', '', 1)}")


class Files(unittest.TestCase):
    """A file may be handed over in many ways."""

    def test_bytes_of_each_kind(self):
        wanted = gedtool.canon(FAMILY)
        framed = b"..." + FAMILY + b"."
        with tempfile.TemporaryFile() as file:
            file.write(FAMILY)
            file.flush()
            mapped = mmap.mmap(file.fileno(), 0, access=mmap.ACCESS_READ)
        kinds = [
            bytearray(FAMILY),
            memoryview(FAMILY),
            memoryview(bytearray(FAMILY)),
            memoryview(framed)[3:-1],
            memoryview(bytearray(framed))[3:-1],
            array.array("B", FAMILY),
            mapped,
        ]
        for data in kinds:
            with self.subTest(type(data).__name__):
                self.assertEqual(gedtool.canon(data), wanted)
                self.assertTrue(gedtool.same(data, FAMILY))
        mapped.close()

    def test_paths(self):
        self.assertEqual(gedtool.canon(FAMILY_PATH), gedtool.canon(FAMILY))
        self.assertEqual(gedtool.canon(str(FAMILY_PATH)), gedtool.canon(FAMILY))

    def test_no_bytes(self):
        for data in (b"", bytearray(), memoryview(b"")):
            self.assertEqual(gedtool.lines(data), b"\xef\xbb\xbf")
            with self.assertRaisesRegex(gedtool.FileFault, "fault 12 at line 1: NoHeader"):
                gedtool.canon(data)

    def test_what_is_no_file(self):
        for data in (None, 7, [1, 2]):
            with self.assertRaises(TypeError):
                gedtool.canon(data)
        with self.assertRaises(BufferError):
            gedtool.canon(memoryview(FAMILY)[::2])
        with self.assertRaises(FileNotFoundError):
            gedtool.canon(ROOT / "examples/missing.ged")
        with self.assertRaises(IsADirectoryError):
            gedtool.same(FAMILY, ROOT)

    def test_settings(self):
        with self.assertRaisesRegex(ValueError, "edition must be 1 or 2, not 3"):
            gedtool.canon(FAMILY, edition=3)
        with self.assertRaises(TypeError):
            gedtool.canon(FAMILY, True)

    def test_each_setting_of_each_call(self):
        one, other = (HEAD + b"0 INDI\n1 BIRT\n2 DATE " + day + b" MAY 1871\n" + END for day in (b"03", b"3"))
        self.assertEqual((gedtool.same(one, other), gedtool.same(one, other, edition=2)), (False, True))
        self.assertNotEqual(gedtool.digest(one), gedtool.digest(other))
        self.assertEqual(gedtool.digest(one, edition=2), gedtool.digest(other, edition=2))
        self.assertNotEqual(gedtool.canon(one), gedtool.canon(other))
        self.assertEqual(gedtool.canon(one, edition=2), gedtool.canon(other, edition=2))
        noted = HEAD + b"0 INDI\n1 AFN 1\n" + END

        def same_twice(data, **settings):
            return gedtool.same(data, data, **settings)

        for call in (gedtool.check, gedtool.show, gedtool.canon, gedtool.digest, same_twice):
            call(noted)
            with self.assertRaisesRegex(gedtool.FileFault, "fault 29 at line 5: UnlistedTag$"):
                call(noted, strict=True)

    def test_limit(self):
        self.assertEqual(gedtool.LIMIT, 1_073_741_824)

    def test_bytes_are_let_go(self):
        for data in (bytearray(FAMILY), bytearray(b"0 INDI\n")):
            answer_or_fault(gedtool.canon, data)
            answer_or_fault(gedtool.same, data, data)
            # not allowed while somebody holds the bytes
            data.append(0)


class Answers(unittest.TestCase):
    """An answer is a `bytes` as any other."""

    def test_longer_than_the_first_room(self):
        # each line of 5 bytes is answered by one of 7, and the first room has an eighth more than the file, and 4096 bytes
        shown = gedtool.show(HEAD + b"0 INDI\n" + 9000 * b"1 _A\n" + END)
        self.assertEqual(shown[4:], 9000 * [gedtool.Structure(1, "_A", None)])

    def test_many_notices(self):
        notices = gedtool.check(HEAD + b"0 INDI\n" + 9000 * b"1 AFN 1\n" + END)
        self.assertEqual(notices, [gedtool.Notice(line, "unlisted tag") for line in range(5, 9005)])

    def test_nobody_else_has_it(self):
        answer = gedtool.canon(FAMILY)
        other = bytes(bytearray(answer))
        self.assertEqual(sys.getrefcount(answer), sys.getrefcount(other))
        self.assertEqual((sys.getsizeof(answer), hash(answer)), (sys.getsizeof(other), hash(other)))

    def test_threads(self):
        file = HEAD + b"0 INDI\n" + 2000 * b"1 NOTE The register was lost.\n" + END
        wanted = gedtool.canon(file)
        with ThreadPoolExecutor(8) as threads:
            answers = list(threads.map(gedtool.canon, [file, bytearray(file), memoryview(file)] * 8))
        self.assertEqual(answers, [wanted] * 24)

    def test_bytes_that_may_be_written(self):
        # only while the interpreter's lock is held are they kept from other threads
        library = gedtool._library
        with library._held(b"") as one, library._held(bytearray()) as another:
            self.assertIs(library._calls_for(one, one), library.RELEASING)
            self.assertIs(library._calls_for(another), library.HOLDING)
            self.assertIs(library._calls_for(one, another), library.HOLDING)

    def test_version(self):
        self.assertEqual(gedtool.__version__, (ROOT / "VERSION").read_text().strip())


class Faults(unittest.TestCase):
    """Each exception says what it tells, and of what."""

    def test_fault_of_a_file(self):
        with self.assertRaises(gedtool.FileFault) as caught:
            gedtool.same(FAMILY, HEAD + b"0 INDI\n1 SEX F\n1 SEX U\n" + END)
        fault = caught.exception
        self.assertEqual((fault.number, fault.name, fault.line, fault.which), (22, "TooMany", 6, "second"))
        self.assertEqual(str(fault), "second file: fault 22 at line 6: TooMany")
        self.assertTrue(fault.explanation.startswith("A line that may stand once stands twice. Two records"))
        self.assertIsInstance(fault, (gedtool.GedtoolError, ValueError))
        again = pickle.loads(pickle.dumps(fault))
        self.assertEqual((type(again), str(again), vars(again)), (gedtool.FileFault, str(fault), vars(fault)))

    def test_too_long(self):
        with tempfile.NamedTemporaryFile() as file:
            file.truncate(gedtool.LIMIT + 1)
            with mmap.mmap(file.fileno(), 0, access=mmap.ACCESS_READ) as mapped:
                for data in (file.name, mapped):
                    with self.assertRaises(gedtool.TooLong) as caught:
                        gedtool.canon(data)
                    self.assertEqual(str(caught.exception), "fault 24: TooLong")
                    self.assertIsNone(caught.exception.line)
                    with self.assertRaisesRegex(gedtool.TooLong, "^second file: fault 24: TooLong$"):
                        gedtool.same(FAMILY, data)

    def test_endless_file_is_read_no_further(self):
        with mock.patch("gedtool._library.LIMIT", 5_000_000):
            with self.assertRaises(gedtool.TooLong):
                gedtool.check("/dev/zero")

    def test_long_file_is_not_read(self):
        with tempfile.NamedTemporaryFile() as file:
            file.truncate(1 << 40)
            with self.assertRaises(gedtool.TooLong):
                gedtool.check(file.name)

    def test_out_of_memory(self):
        script = """
import resource
import gedtool
file = b"0 HEAD\\n1 GEDC\\n2 VERS 7.0\\n0 INDI\\n" + 2_000_000 * b"1 NOTE A\\n" + b"0 TRLR\\n"
taken = int(open("/proc/self/statm").read().split()[0]) * resource.getpagesize()
resource.setrlimit(resource.RLIMIT_AS, (taken + 1_000_000, resource.RLIM_INFINITY))
for call in (lambda: gedtool.same(file, file), lambda: gedtool.canon(file)):
    try:
        call()
    except MemoryError as error:
        print(type(error).__name__, error)
resource.setrlimit(resource.RLIMIT_AS, (resource.RLIM_INFINITY, resource.RLIM_INFINITY))
print(gedtool.same(file, file))
"""
        ended = subprocess.run([sys.executable, "-c", script], capture_output=True, text=True, check=True)
        first, room, again = ended.stdout.splitlines()
        self.assertEqual((first, again), ("OutOfMemory first file: fault 27: Memory", "True"))
        self.assertEqual(room.split()[0], "MemoryError")

    def test_memory_is_given_back(self):
        # what a thousand calls for a faulty file took for its answer would be a gigabyte
        script = """
import resource
import gedtool
taken = int(open("/proc/self/statm").read().split()[0]) * resource.getpagesize()
resource.setrlimit(resource.RLIMIT_AS, (taken + 100_000_000, resource.RLIM_INFINITY))
for _ in range(1000):
    try:
        gedtool.canon(1_000_000 * b"x")
    except gedtool.FileFault:
        pass
print("ok")
"""
        ended = subprocess.run([sys.executable, "-c", script], capture_output=True, text=True, check=False)
        self.assertEqual((ended.stdout, ended.stderr), ("ok\n", ""))

    def test_no_library(self):
        # one that is not there, and one without the calls
        for path in ("/nowhere/libgedtool.so", "libc.so.6"):
            ended = subprocess.run(
                [sys.executable, "-c", "import gedtool"],
                env={**os.environ, "GEDTOOL_LIBRARY": path},
                capture_output=True,
                text=True,
                check=False,
            )
            self.assertIn("ImportError: no library of gedtool: ", ended.stderr)


if __name__ == "__main__":
    unittest.main()
