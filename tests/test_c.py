"""The library as C sees it: the example built and run, the header in C and C++, and what the shared library exports."""

import ctypes
import os
import re
import shutil
import subprocess
import tempfile
import unittest

from support import Flash, bench_dump

import builder

ROOT = os.path.dirname(os.path.dirname(os.path.abspath(__file__)))
BUILD = os.path.join(ROOT, "build")
HEADER = os.path.join(ROOT, "include", "choduljin.h")
LIBRARY = os.path.join(BUILD, "libchoduljin.so")
SLIP_SIZE = 20
ON = 256
MAY_NOT_RUN = 18
STRICT = ("-Wall", "-Wextra", "-Werror", "-pedantic", "-I" + os.path.dirname(HEADER))


def read(*names):
    with open(os.path.join(ROOT, *names), "rb") as f:
        return f.read()


def sample():
    """Slip, dump and listing of the sample."""
    whole = read("samples", "small.dump")
    return whole[:SLIP_SIZE], whole[SLIP_SIZE:], read("samples", "small.txt").decode().splitlines()


def lent(*slices):
    """Each slice as C lends it: a pointer and a length."""
    return [x for s in slices for x in (s, ctypes.c_size_t(len(s)))]


class Scratch(unittest.TestCase):
    def setUp(self):
        self.directory = tempfile.mkdtemp()
        self.addCleanup(shutil.rmtree, self.directory)

    def file(self, name, content):
        path = os.path.join(self.directory, name)
        with open(path, "wb") as f:
            f.write(content)
        return path


class Example(Scratch):
    def run_on(self, slip, dump):
        words = [os.path.join(BUILD, "attach"), self.file("slip", slip), self.file("dump", dump)]
        return subprocess.run(words, stdout=subprocess.PIPE, stderr=subprocess.PIPE)

    def test_prints_grade_and_map(self):
        slip, dump, listing = sample()
        wanted = ["grade 1"] + ["volume %s LEB %s in PEB %s" % tuple(line.split()[1:])
                                for line in listing if line.startswith("map ")]
        done = self.run_on(slip, dump)
        self.assertEqual((done.returncode, done.stderr, done.stdout.decode().splitlines()), (1, b"", wanted))

    def test_prints_a_refusal(self):
        slip, dump, _ = sample()
        self.assertEqual(self.run_on(slip, dump[:-1]).stdout, b"refused 3 at 0\n")
        done = self.run_on(slip[:-1], dump)
        self.assertEqual((done.returncode, done.stdout), (2, b"refused 1 at 0\n"))

    def test_a_slip_that_is_too_long_is_no_answer(self):
        slip, dump, _ = sample()
        done = self.run_on(slip * 10, dump)
        self.assertEqual((done.returncode, done.stdout), (3, b""))
        self.assertNotEqual(done.stderr, b"")


class BuildExample(Scratch):
    """examples/build.c: 8 blocks for `boot`, 40 for `log`, image sequence 1, of 64 blocks."""

    def run_on(self, content, image):
        words = [os.path.join(BUILD, "build"), self.file("content", content), image]
        return subprocess.run(words, stdout=subprocess.PIPE, stderr=subprocess.PIPE)

    def test_writes_the_image(self):
        flash, out = Flash(131072, 2048, 512), os.path.join(self.directory, "image")
        slip = builder.slip_with(flash.slip, [builder.volume_field(8, kind=2, name=b"boot"),
                                              builder.volume_field(40, flags=1)])
        for content in (b"", b"boot", bytes(range(256)) * (8 * flash.leb_size // 256)):
            done = self.run_on(content, out)
            self.assertEqual((done.returncode, done.stdout, done.stderr), (0, b"", b""))
            given = slip, 1, [len(content), 0], content, bytes(64 * 131072)
            self.assertEqual((builder.BUILT, read(out)), builder.build(*given))

    def test_prints_a_refusal(self):
        out = os.path.join(self.directory, "image")
        done = self.run_on(bytes(8 * 129024 + 1), out)
        self.assertEqual((done.returncode, done.stdout), (2, b"refused 21 at 0\n"))
        self.assertFalse(os.path.exists(out))
        done = self.run_on(b"boot", os.path.join(self.directory, "none", "image"))
        self.assertEqual((done.returncode, done.stdout), (3, b""))
        self.assertIn(b"No such file or directory", done.stderr)


# How many words each struct has, and where a plan's parts stand.
SIZES = {"REPORT_WORDS": 17, "PLAN_WORDS": 24, "GEOMETRY_WORDS": 6, "EC_WORDS": 5, "VID_WORDS": 11, "RECORD_WORDS": 7,
         "WRITE_WORDS": 3, "PLAN_VID": 7, "PLAN_EC": 18, "PLAN_STEPS": 23}


class Header(Scratch):
    PROGRAM = ("#include <choduljin.h>\n%s\nint main(void) { return choduljin_version() != CHODULJIN_VERSION; }\n"
               % "\n".join("typedef char is_%s[CHODULJIN_%s == %d ? 1 : -1];" % (name.lower(), name, size)
                           for name, size in SIZES.items())).encode()

    def compiled(self, compiler, name, *options):
        out = os.path.join(self.directory, "program")
        words = [compiler, self.file(name, self.PROGRAM), "-o", out, LIBRARY, "-Wl,-rpath," + BUILD]
        subprocess.run(words + list(STRICT + options), check=True)
        return subprocess.run([out]).returncode

    def test_c(self):
        self.assertEqual(self.compiled(os.environ.get("CC", "cc"), "one.c", "-std=c99"), 0)

    @unittest.skipUnless(shutil.which(os.environ.get("CXX", "c++")), "no C++ compiler")
    def test_cxx(self):
        self.assertEqual(self.compiled(os.environ.get("CXX", "c++"), "one.cc"), 0)


def words_of(first):
    """Names of the words in the header's enum that begins with this one, in their order, without their last."""
    header = read("include", "choduljin.h").decode()
    body = re.search(r"enum \{\s*(CHODULJIN_%s\b.*?)\};" % first, header, re.S).group(1)
    return re.findall(r"^\s*CHODULJIN_(\w+)", body, re.M)[:-1]


class Words(unittest.TestCase):
    def test_a_report_has_its_words_in_the_header_s_order(self):
        slip, dump, listing = sample()
        library = ctypes.CDLL(LIBRARY)
        words = [(ctypes.c_uint32 * size)() for size in (4096 * 2, 4096 * 3, 128)] + [(ctypes.c_uint64 * 17)()]
        answer = library.choduljin_attach(*lent(slip, dump, *words))
        found = dict(zip(words_of("REPORT_NUMBER"), words[3]))
        first = listing[0].split()
        told = dict(zip(first[::2], map(int, first[1::2])))
        names = {"attached": "PEB_COUNT", "entries": "ENTRIES", "mean": "MEAN", "highest": "HIGHEST",
                 "readonly": "READ_ONLY", "table": "TABLE", "copies": "COPIES_MARK", "grade": "GRADE"}
        self.assertEqual({word: found["REPORT_" + name] for word, name in names.items()}, told)
        self.assertEqual((answer, found["REPORT_PEB_SIZE"]), (0, int.from_bytes(slip[3:7], "big")))


class Installed(Scratch):
    def test_a_program_is_built_and_run_with_what_is_installed(self):
        root = os.path.join(self.directory, "root")
        # -o all: what is tested is what was built, whatever the age of its sources.
        subprocess.run(["make", "-s", "-C", ROOT, "-o", "all", "install", "PREFIX=" + root], check=True)
        self.assertIn("prefix=%s\n" % root, read(root, "lib", "pkgconfig", "choduljin.pc").decode())
        out = os.path.join(self.directory, "attach")
        subprocess.run([os.environ.get("CC", "cc"), os.path.join(ROOT, "examples", "attach.c"), "-o", out,
                        "-I" + root + "/include", "-L" + root + "/lib", "-lchoduljin", "-Wl,-rpath," + root + "/lib"],
                       check=True)
        slip, dump, _ = sample()
        done = subprocess.run([out, self.file("slip", slip), self.file("dump", dump)], stdout=subprocess.PIPE)
        self.assertEqual((done.returncode, done.stdout[:8]), (1, b"grade 1\n"))
        listed = subprocess.run([root + "/bin/ubilist"], input=slip + dump, stdout=subprocess.PIPE).stdout
        self.assertEqual(listed, read("samples", "small.txt"))


class Move(unittest.TestCase):
    """01's bench move: three bytes of data in units of one, so 6 steps."""
    STEPS = 6

    def setUp(self):
        whole = bench_dump()
        self.library = ctypes.CDLL(LIBRARY)
        self.plan = (ctypes.c_uint64 * 24)()
        self.image = ctypes.create_string_buffer(whole[SLIP_SIZE:], len(whole) - SLIP_SIZE)
        tables = [(ctypes.c_uint32 * size)() for size in (4096 * 2, 4096 * 3, 128)]
        words = lent(whole[:SLIP_SIZE], self.image, *tables) + [0, 0, 3] + lent(self.plan)
        self.assertEqual(self.library.choduljin_begin(*words), 0)

    def call(self, name):
        return self.library[name](*lent(self.plan, self.image))

    def test_a_finished_plan_runs_no_step_again(self):
        begun = list(self.plan)
        self.assertEqual(self.call("choduljin_step"), ON)
        self.assertEqual(self.call("choduljin_finish"), 0)
        image = self.image.raw
        for again in ("choduljin_step", "choduljin_finish"):
            self.assertEqual(list(self.plan), begun[:SIZES["PLAN_STEPS"]] + [self.STEPS])
            self.assertEqual((self.call(again), self.image.raw == image), (0, True))
        self.assertEqual(list(self.plan), begun[:SIZES["PLAN_STEPS"]] + [self.STEPS])

    def test_a_refused_finish_leaves_the_plan(self):
        self.plan[SIZES["PLAN_EC"]] = 0  # no version of a header
        begun, image = list(self.plan), self.image.raw
        self.assertEqual(self.call("choduljin_finish"), MAY_NOT_RUN)
        self.assertEqual((list(self.plan), self.image.raw == image), (begun, True))


class Exports(unittest.TestCase):
    def test_what_the_header_declares_and_nothing_else(self):
        declared = set(re.findall(r"^uint32_t (choduljin_\w+)\(", read("include", "choduljin.h").decode(), re.M))
        lines = subprocess.run(["nm", "-D", "--defined-only", LIBRARY], check=True, stdout=subprocess.PIPE).stdout
        self.assertEqual({line.split()[-1].split("@")[0] for line in lines.decode().splitlines()}, declared)
        self.assertEqual(len(declared), 14)

    def test_needs_the_c_library_alone(self):
        shown = subprocess.run(["readelf", "-d", LIBRARY], check=True, stdout=subprocess.PIPE).stdout.decode()
        self.assertLessEqual(set(re.findall(r"\(NEEDED\).*\[(.*)\]", shown)), {"libc.so.6"})
        self.assertIn("libchoduljin.so.0", shown)

    def test_version(self):
        found = ctypes.CDLL(LIBRARY).choduljin_version()
        wanted = "%d.%d.%d" % (found >> 16, found >> 8 & 0xFF, found & 0xFF)
        self.assertIn("VERSION := %s\n" % wanted, read("Makefile").decode())


if __name__ == "__main__":
    unittest.main()
