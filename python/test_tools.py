"""What the tools say where something is missing: one line on standard error that says what to do, and status 1.

    python3 -m unittest discover python
"""
import json
import os
import shutil
import subprocess
import sys
import tempfile
import unittest

from ishkrela import AllGather, AllSlice, Repeat, Sharding
from plan_bytes import file_of

ROOT = os.path.join(os.path.dirname(os.path.abspath(__file__)), "..")
KEPT = ("tools", "python/ishkrela.py", "tests/plans.txt")


class Missing(unittest.TestCase):
    """A copy of the project in which nothing is built, with no program on the path but those linked there."""

    def setUp(self):
        self.home = tempfile.mkdtemp()
        self.addCleanup(shutil.rmtree, self.home)
        for kept in KEPT:
            there = os.path.join(self.home, kept)
            os.makedirs(os.path.dirname(there), exist_ok=True)
            copy = shutil.copytree if os.path.isdir(os.path.join(ROOT, kept)) else shutil.copy
            copy(os.path.join(ROOT, kept), there)
        self.write("bin/python3", f'#!/bin/sh\nexec "{sys.executable}" "$@"\n')
        for name in ("bash", "env", "dirname"):
            os.symlink(shutil.which(name), os.path.join(self.home, "bin", name))

    def write(self, path, text=""):
        path = os.path.join(self.home, path)
        os.makedirs(os.path.dirname(path), exist_ok=True)
        with open(path, "w", encoding="utf-8") as file:
            file.write(text)
        os.chmod(path, 0o755)

    def put_on_the_path(self, *names):
        for name in names:
            self.write(os.path.join("bin", name), "#!/bin/sh\n")

    def assertStops(self, said, *command, printed=""):
        there = {"PATH": os.path.join(self.home, "bin")}
        tool, *given = command
        tool = os.path.join(self.home, "tools", tool)
        done = subprocess.run([tool, *given], cwd=self.home, env=there, capture_output=True, text=True)
        self.assertEqual((done.returncode, done.stdout), (1, printed), done.stderr)
        self.assertEqual(done.stderr.count("\n"), 1, done.stderr)
        self.assertIn(said, done.stderr)

    def test_build(self):
        self.assertStops("rt is not on the path: add the bin folder of the Rattle kit", "build")
        self.put_on_the_path("rt")
        self.assertStops("cc is not on the path: install a C compiler", "build")

    def test_try_c(self):
        self.assertStops("cc is not on the path: install a C compiler", "try_c")
        self.put_on_the_path("cc")
        self.assertStops("libcapi.a is not there: tools/build makes it", "try_c")

    def test_install(self):
        self.assertStops("name the folder to install into, such as /usr/local: tools/install PREFIX", "install")
        self.assertStops("pkg-config reads no such name", "install", "$HOME")
        self.assertStops("libcapi.a is not there: tools/build makes it", "install", "prefix")
        self.write("target/staticlib/libcapi.a")
        self.assertStops("libishkrela.so is not there: tools/build makes it", "install", "prefix")

    def test_benchmarks(self):
        self.put_on_the_path("rt", "cc", "cargo")
        self.assertStops("rustc is not on the path: add it", "benchmarks")
        self.put_on_the_path("rustc")
        self.assertStops("libcapi.a is not there: tools/build makes it", "benchmarks")

    def test_pictures(self):
        self.assertStops("libishkrela.so is not there: tools/build makes it", "pictures")

    def test_vectors(self):
        self.assertStops("usage: tools/vectors CASES", "vectors")
        self.assertStops("none.txt: No such file or directory: name a file of cases", "vectors", "none.txt")
        self.assertStops("tests: Is a directory: name a file of cases", "vectors", "tests")
        self.assertStops("`rt run` in crates/plancheck proves and builds it", "vectors", "tests/plans.txt")
        for line in ("0|1|2", "zz|no 1 0", "-|0|70000|no 1 0", "[2|[]|2|ok 0 1", "-|-1|0|no 1 0", "[2]|[1, 65536]|[]|2|no 19 0"):
            self.write("cases.txt", f"# a case\n{line}\n")
            self.assertStops("cases.txt, line 2: not a case: `tools/vectors --help` shows", "vectors", "cases.txt")

    def test_pack(self):
        self.assertStops("usage: tools/pack, with no argument", "pack", "tests/plans.txt")
        self.assertStops("placements.txt: No such file or directory: name a file of cases", "pack")

    def test_json_cases(self):
        self.assertStops("usage: tools/json_cases FILE.jsonl", "json_cases")
        self.assertStops("none.jsonl: No such file or directory: name a file of cases", "json_cases", "none.jsonl")
        lines = ["no JSON", "[]", '{"file": "00"}', '{"file": 0, "check": {}}', '{"mesh": [2], "groups": []}']
        lines += ['{"file": "00", "state": 0, "devices": [0], "place_all": []}', '{"mesh": [2], "write": ""}', '{"mesh": [2], "plan": []}', *self.cases_of_no_steps()]
        for line in lines:
            self.write("cases.jsonl", line)
            self.assertStops("cases.jsonl, line 1: not a case: `tools/json_cases --help` shows", "json_cases", "cases.jsonl")
        self.write("cases.jsonl", '{"file": "00", "check": {"no": [1, 0]}}')
        self.assertStops("libishkrela.so is not there: tools/build makes it", "json_cases", "cases.jsonl")

    def cases_of_no_steps(self):
        """Steps that lack a part or have a number that is no byte, and shardings that lack a list or have none."""
        given = {"mesh": [2], "order": [], "table": [4], "start": {"dims": [[]]}, "steps": [], "room": 40, "write": ""}
        for steps in ([[1]], [[3]], [[4, 0, 1]], [[9, 1]], [3], [[3, [256]]]):
            yield json.dumps({**given, "steps": steps})
        for start in ({"dims": []}, {}, []):
            yield json.dumps({**given, "start": start})

    def test_edits(self):
        self.write("crates/one/src/lib.rt", "fn one() {\n    let a = 1;\n    let b = 1;\n    let c = 12;\n}\n")
        self.write("crates/one/must-fail/fine.edit", "One.\nfile: src/lib.rt\nold: b = 1\nnew: b = 2\n")
        for edit, said in (
            ("file: src/lib.rt\nold:     let b = 2;\nnew: \n", "1.edit:2: the text after `old:` is not in crates/one/src/lib.rt"),
            ("file: src/lib.rt\nold:     let b = 2;\nnew: \n", "line 3 is the nearest, `let b = 1;`: write the edit anew"),
            ("\nfile: src/lib.rt\nold: = 1;\nnew: = 2;\n", "1.edit:3: the text after `old:` is in crates/one/src/lib.rt at lines 2, 3"),
            ("file: src/lib.rt\nold: a\nnew: a\n", "1.edit:2: `new:` is the same as `old:`"),
            ("file: src/none.rt\nold: a\nnew: b\n", "1.edit:2: crates/one/src/none.rt is not there"),
            ("file: ../lib.rt\nold: a\nnew: b\n", "1.edit:2: `file: ../lib.rt` is not below src/"),
            ("file: src/lib.rt\nnew: b\n", "1.edit:2: `new:` has no `old:` before it"),
            ("file: src/lib.rt\nold: a\n", "1.edit:1: no `old:` and `new:` lines"),
        ):
            self.write("crates/one/must-fail/1.edit", edit)
            self.assertStops(said, "edits", printed="1 of 2 must-fail edits apply\n")


class JsonCases(unittest.TestCase):
    """Cases of each call in JSON, answered as written there, refused or otherwise."""

    FILE = file_of([2], [4], Sharding([[]]), [AllSlice([[0]])]).hex()
    WHOLE = {"dims": [[]], "unreduced": [], "replicated": []}
    SPLIT = {"dims": [[0]], "unreduced": [], "replicated": []}
    ON = {"mesh": [2], "order": [], "table": [4]}
    STATES = [{"sharding": WHOLE, "shard": [4]}, {"sharding": SPLIT, "shard": [2]}]
    WORDS = [1, 2, 3, 4, 5, 6, 7, 8]
    CASES = [
        ({"file": FILE}, "check", {"room": 8, "devices": 2, "states": STATES}),
        ({"file": FILE, "work": WORDS, "spare": WORDS}, "run", {"work": [1, 2, 7, 8, 0, 0, 0, 0], "spare": 8 * [0]}),
        ({"file": FILE, "state": 1, "device": 1}, "place", {"sharding": SPLIT, "shard": [2], "first": [2]}),
        ({"file": FILE, "state": 1, "devices": [1, 0, 1], "room": 4}, "place_all", [2, 0, 2]),
        ({"mesh": [2], "order": [1, 0], "axes": [0], "room": 3}, "groups", [1, 0]),
        ({**ON, "start": WHOLE, "steps": [[1, [[0]]]], "room": 27}, "write", FILE),
        ({**ON, "start": WHOLE, "goal": SPLIT}, "plan", [[1, [[0]]]]),
    ]
    REFUSED = [
        ({"file": FILE[2:]}, "check", {"no": [3, 0]}),
        ({"file": FILE, "work": [1], "spare": []}, "run", {"no": [30, 0]}),
        ({"file": FILE, "state": 1, "device": 2}, "place", {"no": [32, 0]}),
        ({"file": FILE, "state": 1, "devices": [1, 2, 3], "room": 3}, "place_all", {"no": [32, 0], "place": 1}),
        ({"file": FILE, "state": 1, "devices": [1, 2, 3], "room": 2}, "place_all", {"no": [33, 0], "place": 0}),
        ({"mesh": [2], "order": [1, 0], "axes": [], "room": 1}, "groups", {"no": [33, 0]}),
        ({**ON, "start": WHOLE, "steps": [[1, [[0]]]], "room": 26}, "write", {"no": [35, 0]}),
        ({**ON, "start": WHOLE, "steps": [[9, 1, 2], [1, [[0]]]], "room": 40}, "write", {"no": [7, 0]}),
        ({**ON, "start": WHOLE, "steps": [[1, [[0]]], [6]], "room": 40}, "write", {"no": [20, 2]}),
        ({**ON, "start": SPLIT, "goal": {**WHOLE, "unreduced": [0]}}, "plan", {"no": [40, 0]}),
    ]

    def said(self, cases):
        with tempfile.NamedTemporaryFile("w", suffix=".jsonl") as file:
            file.write("".join(json.dumps({**given, call: answer}) + "\n" for given, call, answer in cases))
            file.flush()
            tool = os.path.join(ROOT, "tools", "json_cases")
            done = subprocess.run([tool, file.name], capture_output=True, text=True)
            return done.returncode, done.stdout.replace(file.name, "file"), done.stderr

    def test_answered_as_written(self):
        cases = self.CASES + self.REFUSED
        self.assertEqual(self.said(cases), (0, f"file: {len(cases)} cases, 0 differences\n", ""))

    def test_answered_otherwise(self):
        cases = [(given, call, {"no": [1, 0]}) for given, call, _ in self.CASES]
        cases += [(given, call, {**answer, "no": [answer["no"][0], 9]}) for given, call, answer in self.REFUSED]
        cases += [(given, call, {**answer, "place": 9}) for given, call, answer in self.REFUSED if "place" in answer]
        status, said, _ = self.said(cases)
        self.assertEqual((status, said.split("\n")[0]), (1, "file, line 1: answered otherwise"))
        self.assertIn(f"file: {len(cases)} cases, {len(cases)} differences\n", said)


class Plancheck(unittest.TestCase):
    """What the fixtures of the program don't run."""

    def setUp(self):
        self.program = os.path.join(ROOT, "crates", "plancheck", "out", "plancheck")
        if not os.path.exists(self.program):
            self.skipTest("`rt run` in crates/plancheck builds the program")

    def printed(self, *given, **read):
        done = subprocess.run([self.program, *given], capture_output=True, **read)
        return done.stdout.decode(), done.stderr.decode()

    def test_an_argument(self):
        said = "plancheck reads standard input and takes no argument: plancheck < FILE\n"
        self.assertEqual(self.printed("file"), ("", said))

    def test_the_longest_input_and_a_longer_one(self):
        self.assertEqual(self.printed(input=bytes(8192)), ("no 3 0\n", ""))
        self.assertEqual(self.printed(input=bytes(8193)), ("no 2 0\n", ""))
        self.assertEqual(self.printed(input=bytes(100000)), ("no 2 0\n", ""))

    def test_states_are_those_after_outermost_steps(self):
        pair, blocks = [AllSlice([[0], []]), AllGather([[0], []])], 15
        inner = [Repeat(2, (68 if block < 10 else 67) * pair) for block in range(blocks)]
        longest = file_of([2], [2, 1], Sharding([[], []]), inner)
        self.assertEqual(len(longest), 8192)
        states = [f"{state} 2 1\n" for state in range(blocks + 1)]
        self.assertEqual(self.printed(input=longest), (f"ok {blocks}\n" + "".join(states), ""))
        between = file_of([2], [2, 1], Sharding([[], []]), [Repeat(3, pair), pair[0], Repeat(2, pair[::-1])])
        self.assertEqual(self.printed(input=between), ("ok 3\n0 2 1\n1 2 1\n2 1 1\n3 1 1\n", ""))
        elsewhere = file_of([2], [2, 1], Sharding([[], []]), [*pair, Repeat(3, pair[:1])])
        self.assertEqual(self.printed(input=elsewhere), ("no 41 3\n", ""))

    def test_a_failed_read_is_the_end(self):
        folder = os.open(ROOT, os.O_RDONLY)
        self.addCleanup(os.close, folder)
        self.assertEqual(self.printed(stdin=folder), ("no 1 0\n", ""))


if __name__ == "__main__":
    unittest.main()
