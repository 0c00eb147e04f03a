"""The shell, over the library that LIBREDO names: test_shell.py FOLDER [TEST ..]. Lines come by a pipe, or are typed."""
import fcntl
import json
import locale  # noqa: F401      (argparse imports it late, when a child of this test can no longer read it)
import os
import pty
import random
import re
import select
import shlex
import shutil
import signal
import subprocess
import sys
import tempfile
import termios
import time

sys.dont_write_bytecode = True
CAPI = os.path.join(os.path.dirname(os.path.abspath(__file__)), os.pardir)
sys.path.insert(0, CAPI)
import redo  # noqa: E402
from redo.shell import explain, forms, lines, notation, reading, terminal  # noqa: E402
from redo.shell import main as shell_main  # noqa: E402

COMMAND = [sys.executable, "-B", os.path.join(CAPI, "redo_shell.py")]
PROGRAM = os.path.join(CAPI, os.pardir, "release", "redo-x86_64-linux")
ENV = {**os.environ, "PYTHONDONTWRITEBYTECODE": "1", "NO_COLOR": "1", "REDO_HISTORY": "", "TERM": "xterm"}


def fresh(folder, name, objects=16, cap=1024, limit=1 << 20, pages=False):
    path = os.path.join(folder, name)
    os.mkdir(path)
    redo.create(path, objects, cap, limit, pages=pages).close()
    return path


def ask(path, script, *words, status=0, **env):
    """What lines are answered, and what is told beside."""
    script = script if isinstance(script, bytes) else "".join(f"{line}\n" for line in script).encode()
    done = subprocess.run([*COMMAND, *words, path], input=script, capture_output=True, env={**ENV, **env})
    assert done.returncode == status, (done.returncode, done.stdout[-500:], done.stderr[-1500:])
    return done.stdout.decode("utf-8", "surrogateescape"), done.stderr.decode("utf-8", "surrogateescape")


def answers(path, *script, **settings):
    return ask(path, script, **settings)[0].splitlines()


def values_of(path):
    with redo.open(path) as s:
        return list(s)


class Typed:
    """A shell at a terminal of its own."""

    def __init__(self, *words, cwd=None, **env):
        here, there = pty.openpty()
        subprocess.run(["stty", "rows", "24", "cols", "100"], stdin=there, check=True)
        self.run = subprocess.Popen([*COMMAND, *words], stdin=there, stdout=there, stderr=there, start_new_session=True,
                                    preexec_fn=lambda: fcntl.ioctl(0, termios.TIOCSCTTY, 0),
                                    cwd=cwd, env={**ENV, **env})
        os.close(there)
        self.pty, self.said = here, ""

    def type(self, text):
        os.write(self.pty, text.encode())

    def until(self, text):
        """What was said since the last such call, up to this text."""
        end = time.monotonic() + 60
        while text not in self.said:
            ready = select.select([self.pty], [], [], max(0, end - time.monotonic()))[0]
            assert ready, f"{text!r} was not said: {self.said!r}"
            try:
                more = os.read(self.pty, 65536).decode("utf-8", "replace")
            except OSError:
                more = ""
            assert more, f"{text!r} was not said before the end: {self.said!r}"
            self.said += more
        said, self.said = self.said.split(text, 1)
        return said

    def interrupt(self):
        """Ctrl-C, up to the next prompt. One that comes just before Python waits for a key is seen with the next key alone."""
        for _ in range(20):
            self.type("\x03")
            end = time.monotonic() + 3
            while "redo> " not in self.said and select.select([self.pty], [], [], max(0, end - time.monotonic()))[0]:
                self.said += os.read(self.pty, 65536).decode("utf-8", "replace")
            if "redo> " in self.said:
                break
        return self.until("redo> ")

    def line(self, text):
        """What a line is answered."""
        self.type(text + "\n")
        said = self.until("redo> ").replace("\r", "")
        return said.split("\n", 1)[1]

    def ends(self):
        """The status, and what is said at the end."""
        said = self.said
        try:
            while more := os.read(self.pty, 65536):
                said += more.decode()
        except OSError:
            pass
        os.close(self.pty)
        return self.run.wait(), said.replace("\r", "")


def notations(folder):
    path = fresh(folder, "notations")
    with open(os.path.join(folder, "a file"), "wb") as file:
        file.write(b"\0of a file")
    given = {
        '"hello"': b"hello", '""': b"", "-": b"", "68656C6c6f": b"hello", "0x00fF": b"\0\xff",
        '"\\n\\t\\r\\0\\\\\\""': b'\n\t\r\0\\"',
        '"\\x00\\xff"': b"\0\xff", '"\\u00e9\\U0001F600"': "é😀".encode(), '"é # 1  2"': "é # 1  2".encode(),
        f'@"{folder}/a file"': b"\0of a file",
    }
    said = answers(path, *(line for x, typed in enumerate(given) for line in (f"  put   {x} {typed}  \r", f"get {x}")))
    assert said == [line for value in given.values() for line in ("ok", notation.shown(value))], said
    assert values_of(path)[:len(given)] == list(given.values())
    assert ask(path, b'put 3 "\xff"\nget 3\n')[0] == "ok\n0xff\n"
    assert answers(path, 'tinsert 11 15 "ann" 0x31', 'tget 11 15 616e6e', 'tget 11 15 "bob"', "trange 11 15 00 ff") == [
        "ok", '"1"', "-", "key    value", "-----  -----", '"ann"  "1"']
    chance = random.Random(5)
    for _ in range(3000):
        length = chance.randrange(9)
        value = chance.choice([chance.randbytes(length), bytes(chance.choices(b'ab"\\0x\n\r\t -@#,', k=length))])
        assert notation.of_notation(notation.shown(value)) == value
        assert notation.of_cell(notation.cell(value)) == value


def table(_):
    """Each line has a form that reads its example, and is done by a call or by the session."""
    words = {form.word for form in forms.LINES}
    assert words - lines.CALLS.keys() == {"begin", "end", "abort"} | explain.BACKUPS and lines.CALLS.keys() <= words
    assert shell_main.WORDS.keys() == {form.word for form in forms.WORDS}
    for form in forms.FORMS.values():
        line = reading.read(form.example)
        assert line.form is form, form
    assert terminal.completions([], "tin") == ["tinsert "] and ".mode " in terminal.completions([], ".m")
    assert terminal.completions([".mode"], "") == ["table ", "json ", "csv ", "plain "]
    assert terminal.completions(["put"], "") == [] and terminal.completions(["put", "1"], "/et") == []
    assert "@/etc/" in terminal.completions(["put", "1"], "@/et") and "/etc/" in terminal.completions([".open"], "/et")


WRONG = [                           # lines, the column of what is wrong, and what is said of it
    ("put 1 hello", 6, 'expected HEX: "text", 0xhex, digits in pairs, @FILE or -. Is "hello" meant?'),
    ("put 1 abc", 9, 'expected one digit more: there are two for each byte; the text is "abc"'),
    ("put 1 0xfg", 9, '"g" is no hexadecimal digit'),
    ("put 1 0x", 8, "expected hexadecimal digits, two for each byte; no bytes are -"),
    ('put 1 "a', 6, 'expected a second " : the text that begins here has no end'),
    ('put 1 "a"b', 9, "expected a space, or the end of the line, after a text"),
    ('put 1 "a\\q"', 8, 'expected \\n \\t \\r \\0 \\\\ \\" \\xHH or \\uHHHH'),
    ('put 1 "\\x1"', 7, "expected 2 hexadecimal digits after \\x"),
    ('put 1 "\\ud800"', 7, "no character has this number"),
    ("put 1 @/nowhere", 6, "cannot read /nowhere: No such file or directory"),
    ("put 1 @/dev/zero", 6, "cannot read /dev/zero: it is no file"),
    ("put 1", 6, "expected HEX: put X HEX"),
    ("put", 4, "expected X: put X HEX"),
    ("get 1 2", 6, "expected the end of the line: get X"),
    ("get 01", 4, "expected X, a number from 0 to 4294967295, without a zero in front"),
    ("get -1", 4, "expected X, a number from 0 to 4294967295"),
    ("get 4294967296", 4, "expected X, a number from 0 to 4294967295"),
    ("get\t1", 0, "no such line; is `get` meant? (`.help` lists all)"),
    ("get 1\t", 4, "expected X, a number from 0 to 4294967295: a tab parts no fields, a space does"),
    ("PUT 1 -", 0, "no such line; is `put` meant? (`.help` lists all)"),
    ("mode json", 0, "no such line; is `.mode` meant? (`.help` lists all)"),
    ("tget 4 9 -", 9, "expected KEY, 1 to 32 bytes, and here are 0"),
    (f"tget 4 9 {'ab' * 33}", 9, "expected KEY, 1 to 32 bytes, and here are 33"),
    (".mode xml", 6, "expected table, json, csv or plain"),
    (".watch 1 -2", 9, "expected SECONDS, a number such as 2 or 0.5"),
    (".export all.txt", 8, "expected FILE, a name that ends in .csv, .jsonl or .redo"),
    (".export all.csv 4", 18, "expected HI: .export FILE [LO HI]"),
    (".help nothing", 6, "no such line (`.help` lists all)"),
    (".quit now", 6, "expected noforce, or the end of the line"),
    ("mget 4 9 hello", 9, 'expected KEY: "text", 0xhex, digits in pairs, @FILE or -. Is "hello" meant?'),
    ("mrange 4 9 - -", 15, "expected LIMIT: mrange LO HI FROM TO LIMIT"),
    (".create new 4 1024 65536 wide", 25, "expected pages, or the end of the line"),
    ("bstart", 0, "`bstart` is answered by `redo run` alone: .backup DIR saves the store here"),
]


def bad_lines(folder):
    path = fresh(folder, "bad_lines")
    said, told = ask(path, [line for line, _, _ in WRONG], status=1)
    assert said == "bad\n" * len(WRONG), said
    told = told.split("\n")
    for i, (line, column, why) in enumerate(WRONG):
        assert told[3 * i] == f"  {line[:100]}", (line, told[3 * i])
        assert told[3 * i + 1] == "  " + " " * column + "^", (line, told[3 * i + 1])
        assert told[3 * i + 2] == f"line {i + 1}: {why}", (line, told[3 * i + 2])
    assert ask(path, b"get 1\n" + b"x" * (1 << 23) + b"x\nget 1\n", status=1)[0] == "-\nbad\n-\n"
    assert answers(path, "# put 1 hello", "", "   ", "put 1 -", "\r") == ["ok"]


def refusals(folder):
    path = fresh(folder, "refusals", objects=4, cap=64, limit=4224)
    wrong = [
        ("get 4", "refused NoObject", "the store has the objects 0 to 3"),
        ("tget 2 1 aa", "refused NoObject",
         "the store has the objects 0 to 3, and LO is not above HI (of a hash file: below it)"),
        ("swap 1 1", "refused Same", "the two objects have to differ"),
        ("cut 1 2 9", "refused BadPlace", "K is more than the length of the value of X"),
        (f"put 1 {'ab' * 65}", "refused TooLarge",
         "an object of this store has at most 64 bytes; a tree or a hash file needs a store whose CAP is 1024 or more"),
        ("mset 1 2 aa bb", "refused NoPages", "a map needs a store that was made with `pages`, and a CAP of 1024 or more"),
        ("end", "refused NoGroup", "no group is open: `begin` begins one"),
        ("abort", "refused NoGroup", "no group is open: `begin` begins one"),
        (".abort", "refused NoGroup", "no group is open: `begin` begins one"),
        ("tdelete 1 2 aa", "refused NoKey", "the key is not there"),
    ]
    said, told = ask(path, [line for line, _, _ in wrong], status=1)
    assert said.splitlines() == [answer for _, answer, _ in wrong], said
    assert told.splitlines() == [f"line {i}: {why}" for i, (_, _, why) in enumerate(wrong, 1)], told
    said, told = ask(path, [f"put {x % 4} {'ab' * 60}" for x in range(60)] + ["trim"], status=1)
    assert re.search(r"^full \d+ \d+ 4224$", said, re.M) and "`drain` and `trim` make room" in told


def as_the_program(folder):
    """Lines of a script, with mode plain, are answered as `redo run` answers them."""
    if not os.path.exists(PROGRAM):
        return
    chance = random.Random(11)
    for seed in range(4):
        cap, limit = chance.choice([(64, 8192), (1024, 1 << 16)])
        script = [random_line(chance) for _ in range(400)] + ["end"]
        ours, theirs = (fresh(folder, f"{name}{seed}", 8, cap, limit, pages=seed % 2 == 1) for name in ("ours", "theirs"))
        program = subprocess.run([PROGRAM, "-C", theirs, "run"], input="".join(f"{line}\n" for line in script).encode(),
                                 capture_output=True)
        said, told = ask(ours, script, "--mode", "plain", status=program.returncode)
        same = [a == b for a, b in zip(said.splitlines(), program.stdout.decode().splitlines())]
        assert all(same), script[same.index(False)]
        assert len(said.splitlines()) == program.stdout.count(b"\n")
        assert values_of(ours) == values_of(theirs)
        dumped = subprocess.run([PROGRAM, "-C", theirs, "dump"], capture_output=True).stdout.decode()
        assert ask(ours, [".dump"], "--mode", "plain")[0] == dumped


def random_line(chance):
    form = chance.choice([form for form in forms.LINES if form.word not in explain.BACKUPS])
    if form.word in ("begin", "force", "trim", "checkpoint") and chance.random() < 0.5:
        return "end"
    low = chance.choice([0, 2, 4])
    words = {"LO": str(low), "HI": str(chance.choice([low + 3, low + 3, 9])), "N": str(chance.randrange(4)),
             "K": str(chance.randrange(4)), "W": str(chance.randrange(3)), "FROM": "00", "TO": "ff",
             "HEX": chance.choice(["-", "00", chance.randbytes(chance.randrange(1, 70)).hex(), "x", "0"])}
    words.update({name: chance.randbytes(1).hex() for name in ("KEY", "VAL")})
    if form.word in forms.MAPS:
        words.update({name: random_text(chance) for name in ("KEY", "VAL", "FROM", "TO")}, LIMIT=str(chance.choice([0, 1, 4, 4294967295])))
    given = [words.get(name) or str(chance.randrange(9)) for name in form.fields]
    return " ".join([form.word, *given, *(["1"] if chance.random() < 0.03 else [])])


def random_text(chance):
    """A key or a value of a map: few keys are met often, and some are long."""
    return (chance.choice(["61", "6162", "62", "ff"]) * chance.choice([1, 1, 1, 2, 60, 130])) if chance.random() < 0.9 else "-"


def modes(folder):
    path = fresh(folder, "modes", objects=4)
    script = ['put 0 "a,\\"b\\""', "put 1 00", "get 0", "get 1", "get 2", "force", ".dump", "get 4", "stat"]
    said, stat = re.split("^(?=nodes)", ask(path, script, status=1)[0], maxsplit=1, flags=re.M)
    assert said == """ok
ok
"a,\\"b\\""
0x00
-
forced 2
object  value
------  ---------
     0  "a,\\"b\\""
     1  0x00
refused NoObject
""", said
    assert stat.startswith("nodes  dirty  uninstalled  forced  accepted  used  identities\n-----  -----  -----------  ------"), stat
    assert re.search(r"\n +\d+ +\d+ +\d+ +2 +2 +\d+ +\d+\n$", stat), stat
    said = [json.loads(line) for line in ask(path, script, "--mode", "json", status=1)[0].splitlines()]
    assert said[:8] == [{"answer": "ok"}, {"answer": "ok"}, {"value": 'a,"b"'}, {"value_hex": "00"}, {"value": ""}, {"forced": 4},
                        [{"object": 0, "value": 'a,"b"'}, {"object": 1, "value_hex": "00"}], {"refused": "NoObject"}]
    assert said[8]["accepted"] == 4
    said = ask(path, script, "--mode", "csv", status=1)[0]
    assert said.startswith('ok\nok\n"a,""b"""\n"0x00"\n""\nforced 6\nobject,value\n0,"a,""b"""\n1,"0x00"\n'
                           "refused NoObject\nnodes,"), said
    said = ask(path, script, "--mode", "plain", status=1)[0]
    assert said.startswith("ok\nok\n612c226222\n00\n-\nforced 8\n0 612c226222\n1 00\ncommands 8\nrefused NoObject\nstat "), said
    state = json.loads(ask(path, [".mode json", ".stat"])[0])
    assert state["limit"] == 1 << 20 and state["forced"] == 8 and state["cap"] == 1024
    assert re.search(r"^log +\d+ of 1048576 bytes \[\.{20}\] 0\.0 %$", ask(path, [".stat"])[0], re.M)


def random_value(chance, cap):
    kind = chance.randrange(7)
    if kind == 0:
        return b""
    if kind == 1:
        return chance.randbytes(chance.randrange(1, 60))
    if kind == 2:
        return "".join(chance.choices('aé😀"\\,\n\r\t 0x@#-', k=chance.randrange(1, 20))).encode()
    if kind == 3:
        return chance.choice(["0x", "0xff", "-", '"', "\r", "\n", "\r\n", "@f", "0", " ", "\ufeff", "\u2028"]).encode()
    if kind == 4:
        return chance.randbytes(chance.randrange(cap + 1))
    return b"x" * chance.randrange(40)


def transfers(folder):
    """What is exported makes the same objects, by each kind of file, in a store with a log that has to be drained on the way."""
    chance = random.Random(3)
    for seed, (objects, cap, limit) in enumerate([(16, 1024, 6144), (12, 60000, 130000), (3, 60000, 130000), (1, 60000, 130000)]):
        path = fresh(folder, f"from{seed}", objects, cap, limit)
        with redo.open(path) as s:
            for x in range(objects):
                s.drain()
                s.trim()
                s.put(x, chance.randbytes(cap) if objects <= 3 or x % 3 == 0 else random_value(chance, cap))
            s.force()
            before = list(s)
        files = [os.path.join(folder, f"all{seed}.{kind}") for kind in ("csv", "jsonl", "redo")]
        said, told = ask(path, [f".export {file}" for file in files + files], status=1)
        assert said == f"exported {sum(map(bool, before))}\n" * 3 + "bad\n" * 3
        assert all(f"{file} is there already, and is not written over" in told for file in files)
        for file in files:
            to = fresh(folder, f"to_{os.path.basename(file)}", objects, cap, limit)
            assert answers(to, f".import {file}")[0].startswith("imported ")
            assert values_of(to) == before, file
        if objects > 3 and os.path.exists(PROGRAM):
            to = fresh(folder, f"by_run{seed}", objects, cap, limit)
            with open(os.path.join(folder, f"all{seed}.redo"), "rb") as script:
                subprocess.run([PROGRAM, "-C", to, "run"], stdin=script, check=True, stdout=subprocess.DEVNULL)
            assert values_of(to) == before
    pairs_of_a_tree(folder, chance)
    wrong_files(folder)
    runs_are_not_repeated(folder)


def pairs_of_a_tree(folder, chance):
    path, to = fresh(folder, "tree", 64, 1024, 16384), fresh(folder, "tree_to", 64, 1024, 8192)
    with redo.open(path) as s:
        tree = s.tree(2, 63)
        for _ in range(90):
            tree[random_value(chance, 32)[:32] or b"k"] = random_value(chance, 32)[:32] or b"v"
        s.force()
        before = dict(tree)
    for kind in ("csv", "jsonl", "redo"):
        file = os.path.join(folder, f"pairs.{kind}")
        into = "" if kind == "redo" else " 2 63"
        assert answers(path, f".export {file} 2 63") == [f"exported {len(before)}"]
        assert answers(to, *([f"put {x} -" for x in range(2, 64)]), f".import {file}{into}")[-1].startswith("imported ")
        with redo.open(to) as s:
            assert dict(s.tree(2, 63)) == before, kind


def runs_are_not_repeated(folder):
    """A line that is several commands, some of which are done as the log is full, is not given once more."""
    path, file = fresh(folder, "runs", objects=4, cap=64, limit=4224), os.path.join(folder, "runs.redo")
    with open(file, "w") as out:
        out.write("\n".join([f"put 0 {'00' * 40}", "aread 1 0", *[f"put 2 {'ab' * 64}"] * 48, "arun 1 30", ""]))
    said, told = ask(path, [f".import {file}"], status=1)
    assert said.startswith("full ") and "line 51: stopped here; 50 before it are done" in told, (said, told)


def wrong_files(folder):
    path = fresh(folder, "wrong_files", objects=4)
    with open(os.path.join(folder, "spreadsheet.csv"), "wb") as out:
        out.write(b"\xef\xbb\xbfobject,value\r\n0,a\r\n1,\"b\r\n\"\r\n\r\n")
    assert answers(path, f".import {folder}/spreadsheet.csv", ".mode json", ".dump", "put 0 -", "put 1 -")[1] == json.dumps(
        [{"object": 0, "value": "a"}, {"object": 1, "value": "b\r\n"}])
    wrong = [
        ("a.csv", "object,value\n1,a\nx,b\n", "line 3: expected the number of an object in the first field"),
        ("b.csv", '1,"a\n', "line 1: unexpected end of data"),
        ("c.csv", "1,0xf\n", "line 1: expected one digit more: there are two for each byte"),
        ("d.csv", "1,a,b\n", "line 1: expected two fields, object and value, and here are 3"),
        ("a.jsonl", '{"object": 1, "value": "a"}\n{"object": "1", "value": "a"}\n',
         'line 2: expected "object", and a whole number'),
        ("b.jsonl", '{"object": 1, "value": 7}\n', 'line 1: expected "value" and a text, or "value_hex" and hexadecimal digits'),
        ("c.jsonl", "[1]\n", 'line 1: expected an object, such as {"object": 1, "value": "hello"}'),
        ("d.jsonl", "{\n", "line 1: Expecting property name"),
        ("e.jsonl", "[" * 100000, "line 1: "),
        ("a.redo", "put 1 aa\nput 1 hello\n", "line 2, column 7: expected HEX"),
        ("b.redo", ".quit\n", "line 1: a line with a dot is none of a script"),
        ("c.redo", "put 1 aa\nbcopy 1\n", "line 2: `bcopy` is answered by `redo run` alone"),
    ]
    for name, text, _ in wrong:
        with open(os.path.join(folder, name), "w") as out:
            out.write(text)
    said, told = ask(path, [f".import {folder}/{name}" for name, _, _ in wrong], status=1)
    assert said == "bad\n" * len(wrong), said
    for name, _, why in wrong:
        assert f"{folder}/{name}, {why}" in told, (name, told)
    assert values_of(path) == [b""] * 4
    with open(os.path.join(folder, "e.redo"), "w") as out:
        out.write("put 1 aa\nput 2 bb\nput 9 aa\nput 3 aa\n")
    said, told = ask(path, [f".import {folder}/e.redo"], status=1)
    assert said == "refused NoObject\n" and "e.redo, line 3: stopped here; 2 before it are done" in told
    assert values_of(path) == [b"", b"\xaa", b"\xbb", b""]


def words(folder):
    path = fresh(folder, "words", objects=64, limit=65536)
    other = os.path.join(folder, "other")
    script = ['tinsert 4 35 "ann" "100"', 'tinsert 4 35 "bob" 00', ".tree 4 35", ".timer on", "get 0", ".timer off"]
    assert answers(path, *script) == [
        "ok", "ok", "key    value", "-----  -----", '"ann"  "100"', '"bob"  0x00', "-"]
    said, told = ask(path, [f".backup {folder}/copy", ".drain", ".trim", f".create {other} 8 64 65536", 'put 0 "x"',
                            f".open {path}", f".open {folder}/nowhere", "get 0", f".backup {folder}/copy"], status=1)
    assert said == "saved 2\nok\nok\nok\nok\nok\nrefused NoFolder\n-\nrefused AlreadyStore\n", said
    assert "2 nodes with 2 records" not in told and re.search(r"the log had \d+ bytes, and has \d+ of 65536", told), told
    assert "forced 1: 1 of them were not on the disk before" in told
    assert values_of(f"{folder}/copy") == values_of(path) and values_of(other)[0] == b"x"
    assert not os.path.exists(f"{folder}/nowhere")
    said, told = ask(path, ['put 0 "a"', ".watch 0", 'put 0 "b"', "put 1 00", ".watch off", 'put 0 "c"', ".watch stat 900",
                            "put 2 -", "put 3 -"])
    assert [line for line in told.split("\n") if line.startswith("watch 0")] == ['watch 0: "a"', 'watch 0: "b"'], told
    assert len([line for line in told.split("\n") if line.startswith("watch stat")]) == 2, told
    assert answers(path, 'hset 36 63 "k" "v"', ".hash 36 63")[1:] == ["key  value", "---  -----", '"k"  "v"']
    said, told = ask(path, [".help"])
    assert all(f"  {form.form}" in said for form in forms.FORMS.values())
    said, told = ask(path, [f".help {word}" for word in forms.FORMS])
    assert [line for line in said.splitlines() if not line.startswith(" ")] == [form.form for form in forms.FORMS.values()]


def maps(folder):
    """Lines of a map, on keys and values as text, and an import that fills the log within an mdel."""
    path = fresh(folder, "maps", objects=64, limit=65536, pages=True)
    script = ['mset 4 63 "ann" "100"', 'mset 4 63 "a long key of many words, and of more than 32 bytes" -', "mget 4 63 0x616e6e",
              'mget 4 63 "x"', ".map 4 63", 'mcount 4 63 "b" -', 'mback 4 63 - - 1', "mnext 4 63 -", 'mnext 4 63 "b"', "mprev 4 63 -"]
    said = answers(path, ".mode json", *script)[2:]
    long = {"key": "a long key of many words, and of more than 32 bytes", "value": ""}
    ann = {"key": "ann", "value": "100"}
    assert [json.loads(line) for line in said] == [
        {"value": "100"}, {"value": None}, [long, ann], {"counted": 0}, [ann], [long], [], [ann]], said
    said = answers(path, *script[2:4], ".map 4 63")
    assert said[:2] == ['"100"', "none"] and said[2].split() == ["key", "value"] and len(said) == 6, said
    said, told = ask(path, ['mset 4 63 - "v"', f"mset 4 63 {'ab' * 121} -", 'mdel 4 63 "x"', "put 4 00", 'mget 4 63 "ann"'], status=1)
    assert said.splitlines() == ["refused TooLong", "refused TooLong", "refused NoKey", "ok", "refused BadMap"]
    assert "a key has 1 to 120 bytes in this store, and its value at most 256" in told and "object 4 is no page of the map" in told
    assert answers(path, f".create {folder}/maps_made 8 1024 65536 pages", "mset 0 7 aa -", "mget 0 7 aa")[1:] == ["ok", "-"]
    file = os.path.join(folder, "maps.redo")
    for rest in range(0, 900, 30):          # wherever the log is full, an import takes all keys out
        with open(file, "w") as out:
            out.write("\n".join([*(f"mset 4 63 {key:02x} {'ab' * 200}" for key in range(30)), "drain", "trim",
                                 *["put 0 " + "ab" * 1024] * 7, f"put 0 {'ab' * rest or '-'}",
                                 *(f"mdel 4 63 {key:02x}" for key in range(30)), ""]))
        to = fresh(folder, f"maps{rest}", objects=64, limit=8192, pages=True)
        assert answers(to, f".import {file}", "mcount 4 63 - -")[1:] == ["counted 0"]


def groups(folder):
    path = fresh(folder, "groups", objects=8)
    assert answers(path, "begin", "put 0 aa", "force", "begin", ".backup x", "end", "force", status=1) == [
        "ok", "ok", "refused InGroup", "refused InGroup", "refused InGroup", "ok", "forced 1"]
    said, told = ask(path, ["begin", "put 0 bb", ".abort", "get 0", "end", "begin", "put 1 cc"], status=1)
    assert said.split() == ["ok", "ok", "ok", "0xaa", "refused", "NoGroup", "ok", "ok"]
    assert "the group that was open is ended here, and kept" in told and "1 commands of the group are given up" in told
    assert values_of(path)[:2] == [b"\xaa", b"\xcc"]
    assert answers(path, "begin", "put 1 dd", "put 2 hello", "end", status=1, *[]) == ["ok", "ok", "bad", "ok"]
    assert ask(path, ["begin", "put 1 ee", "put 9 ff", "end"], "--stop", status=1)[0] == "ok\nok\nrefused NoObject\n"
    assert ask(path, ["put 3 ee", "put 9 ff", "put 4 ff"], "--stop", status=1)[0] == "ok\nrefused NoObject\n"
    assert values_of(path)[1:5] == [b"\xdd", b"", b"\xee", b""]
    said, told = ask(path, ["put 4 aa", ".quit noforce", "put 4 bb"])
    assert said == "ok\n" and "1 commands were not forced, and are lost" in told and values_of(path)[4] == b""


def kills(folder):
    path = fresh(folder, "kills")
    run = subprocess.Popen([*COMMAND, path], stdin=subprocess.PIPE, stdout=subprocess.PIPE, env=ENV)
    run.stdin.write(b"put 0 aa\nforce\nbegin\nput 0 bb\nput 1 bb\nget 1\n")
    run.stdin.flush()
    assert [run.stdout.readline() for _ in range(6)][-1] == b"0xbb\n"
    assert ask(path, ["get 0"], status=71)[1] == "redo: another program has the store: one at a time may change it\n"
    run.send_signal(signal.SIGKILL)
    run.communicate()
    assert run.returncode == -signal.SIGKILL and values_of(path)[:2] == [b"\xaa", b""]
    run = subprocess.Popen([*COMMAND, path], stdin=subprocess.PIPE, stdout=subprocess.PIPE, env=ENV)
    run.stdin.write(b"put 0 cc\nget 0\n")
    run.stdin.flush()
    assert run.stdout.readline() + run.stdout.readline() == b"ok\n0xcc\n"
    run.send_signal(signal.SIGINT)
    run.communicate()
    assert run.returncode == -signal.SIGINT and values_of(path)[0] == b"\xaa"


def statuses(folder):
    path = fresh(folder, "statuses")
    assert "no store is in this folder" in ask(folder, ["get 0"], status=3)[1]
    assert "No such file or directory" in ask(f"{folder}/nowhere", ["get 0"], status=72)[1]
    assert ask(path, ["get 0"], "--frobnicate", status=2)[0] == ""
    ask(path, [".mode json"])
    done = subprocess.run(COMMAND, input=b"get 0\n", capture_output=True, cwd=folder, env=ENV)
    assert done.returncode == 1 and done.stdout == b"refused NotOpen\n" and b".open DIR opens one" in done.stderr
    done = subprocess.run(COMMAND, input=b"get 0\n", capture_output=True, cwd=path, env=ENV)
    assert done.returncode == 0 and done.stdout == b"-\n"
    run = subprocess.Popen([*COMMAND, path], stdin=subprocess.PIPE, stdout=subprocess.PIPE, stderr=subprocess.PIPE, env=ENV)
    run.stdout.close()
    run.stdin.write(b"put 0 aa\n" * 9)
    run.stdin.close()
    assert run.wait() == 7 and run.stderr.read() == b"redo: the output cannot be written: Broken pipe\n"
    into = os.open(os.devnull, os.O_WRONLY)
    done = subprocess.run([*COMMAND, path], stdin=into, stdout=subprocess.PIPE, stderr=os.open(os.devnull, os.O_RDONLY), env=ENV)
    assert done.returncode == 6 and done.stdout == b""
    with open(f"{path}/objects.rdo", "r+b") as file:
        file.write(b"\0" * 16)
    assert ask(path, ["get 0"], status=3)[0] == ""


def read_only(_):
    """A store that may be read and not written: by a child without rights, where this process has all. Where a line opens it the
    store that was open before stays."""
    with tempfile.TemporaryDirectory(dir="/tmp") as folder:
        path, own = fresh(folder, "read_only"), fresh(folder, "own")
        os.chmod(folder, 0o755)
        for store, rights in ((path, 0o444), (own, 0o666)):
            for name in os.listdir(store):
                os.chmod(os.path.join(store, name), rights)
            os.chmod(store, rights | 0o111)
        status, said = by_nobody(path, b"get 0\n")
        assert status == 5 and "Permission denied" in said, said
        status, said = by_nobody(own, f"put 0 aa\n.open {path}\nget 0\n".encode())
        assert status == 1 and "ok\nrefused DiskFault\n" in said and "\n0xaa\nforced 1" in said, said
        os.chmod(path, 0o755)


def by_nobody(path, script):
    (script_out, script_in), (out, into) = os.pipe(), os.pipe()
    os.write(script_in, script)
    os.close(script_in)
    if (child := os.fork()) == 0:
        status = 99
        try:
            os.dup2(script_out, 0), os.dup2(into, 1), os.dup2(into, 2)
            if os.getuid() == 0:
                os.setgid(65534), os.setuid(65534)
            status = shell_main.main([path])
        finally:
            os._exit(status)
    os.close(into)
    os.close(script_out)
    with os.fdopen(out) as file:
        said = file.read()
    return os.waitstatus_to_exitcode(os.waitpid(child, 0)[1]), said


def typed(folder):
    path = fresh(folder, "typed", objects=8)
    t = Typed(path)
    assert "typed: 8 objects of at most 1024 bytes, 0 commands so far" in t.until("redo> ")
    assert t.line('put 0 "hé"') == "ok\n" and t.line("get 0") == '"hé"\n'
    assert t.line("put 0 he") == "bad\n  put 0 he\n        ^\n" + \
        'expected HEX: "text", 0xhex, digits in pairs, @FILE or -. Is "he" meant?\n'
    t.type("put 0 aa")
    t.until("aa")
    t.interrupt()                                    # Ctrl-C gives up the line, and not the store
    assert t.line("get 0") == '"hé"\n'
    t.type("tg\t2 7 \"k\"\n")                        # what was begun is completed
    assert (said := t.until("redo> ").replace("\r", "")).endswith("\n-\n"), said
    t.type("\x1b[A\x1b[A\n")                         # two lines back
    assert t.until("redo> ").replace("\r", "").endswith('\n"hé"\n')
    t.type("begin\n")
    t.until("redo, in a group> ")
    t.type("end\n")
    t.until("redo> ")
    assert t.line("put 1 00") == "ok\n"
    t.type("\x04")
    status, said = t.ends()
    assert status == 0 and "forced 2: 1 of them were not on the disk before" in said, said
    history_and_colours(folder, path)


def history_and_colours(folder, path):
    history = os.path.join(folder, "history")
    t = Typed(path, NO_COLOR="", REDO_HISTORY=history)
    t.until("redo> ")
    t.type("get 9\n")
    assert "\x1b[31mrefused NoObject\x1b[0m" in t.until("redo> ")
    t.type("\x1b[200~get 0\nget 1\x1b[201~\n")      # two lines that are pasted
    assert t.until('"hé"') is not None
    t.type(".quit\n")
    assert t.ends()[0] == 0
    with open(history) as file:
        assert "get 9\n" in file.read()
    assert os.stat(history).st_mode & 0o777 == 0o600
    empty = os.path.join(folder, "empty")
    os.mkdir(empty)
    t = Typed(empty)
    status, said = t.ends()
    assert status == 3 and "no store is in this folder" in said
    t = Typed(cwd=empty)
    assert "no store is in this folder" in t.until("redo, no store> ")
    t.type(".create new 8 64 65536\nput 0 aa\n")
    t.until("ok\r\nredo> ")
    t.until("ok\r\nredo> ")
    t.type("\x04")
    status, said = t.ends()
    assert status == 0 and "forced 1" in said and values_of(f"{empty}/new")[0] == b"\xaa"
    t = Typed(path, "--mode", "json")
    t.until("redo> ")
    t.type(f".import {folder}/slow.redo\n")
    t.until("bad")
    t.type(".quit\n")
    assert t.ends()[0] == 0
    stopped(folder, path)


def stopped(folder, path):
    """Ctrl-C in the middle of an import stops it between two lines."""
    with open(os.path.join(folder, "slow.redo"), "w") as file:
        file.write("put 0 aa\nforce\n" * 20000)
    t = Typed(path)
    t.until("redo> ")
    t.type(f".watch stat 0.1\n.import {folder}/slow.redo\n")
    t.until("watch stat")
    t.until("watch stat")
    t.until("watch stat")
    t.type("\x03")
    assert re.search(r"line \d+: stopped here; \d+ before it are done", t.until("refused Stopped").replace("\r", ""))
    t.until("redo> ")
    assert t.line("get 0").startswith("0xaa\n")          # (and what is watched, where it was not told yet)
    t.type("\x04")
    assert t.ends()[0] == 0


def in_tmux(folder):
    """What a person sees in a real terminal, where tmux is installed: a session, and its end."""
    if not shutil.which("tmux"):
        return
    path, socket = fresh(folder, "in_tmux"), os.path.join(folder, "socket")

    def tmux(*words):
        return subprocess.run(["tmux", "-S", socket, "-f", os.devnull, *words], check=True, capture_output=True, text=True).stdout

    def seen(text):
        end = time.monotonic() + 60
        while text not in (screen := tmux("capture-pane", "-p")):
            assert time.monotonic() < end, screen
            time.sleep(0.05)
        return screen

    tmux("new-session", "-d", "-x", "80", "-y", "24", shlex.join(["env", f"HOME={folder}", *COMMAND, path]) + "; sleep 60")
    try:
        seen("redo>")
        tmux("send-keys", 'put 1 "hello, 世界"', "Enter", "co", "Tab", "1 2", "Enter", "get 2", "Enter", "put 1 hello", "Enter")
        seen('Is "hello" meant?\nredo>')
        tmux("send-keys", "put 1 00")
        seen("redo> put 1 00")
        time.sleep(0.5)                              # until Python waits for a key again
        tmux("send-keys", "C-c")
        seen("redo> put 1 00\nredo>")
        tmux("send-keys", "get 1", "Enter", "C-d")
        screen = seen("forced 2: 2 of them were not on the disk before")
        assert "redo> copy 1 2\nok\nredo> get 2\n\"hello, 世界\"\n" in screen, screen
        assert "\n  put 1 hello\n        ^\n" in screen, screen
        assert screen.count('"hello, 世界"\n') == 3, screen
    finally:
        tmux("kill-server")


TESTS = [notations, table, bad_lines, refusals, as_the_program, modes, transfers, words, maps, groups, kills, statuses, read_only,
         typed, in_tmux]


def main():
    folder = sys.argv[1] if len(sys.argv) > 1 else tempfile.mkdtemp()
    wanted = sys.argv[2:]
    for test in TESTS:
        if wanted and test.__name__ not in wanted:
            continue
        room = os.path.join(folder, test.__name__)
        os.mkdir(room)
        begun = time.monotonic()
        test(room)
        print(f"{test.__name__}: {time.monotonic() - begun:.1f} s", flush=True)
    print("test_shell.py: ok")


main()
