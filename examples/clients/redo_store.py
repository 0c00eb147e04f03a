"""A store of redo as another program uses it: lines go to `redo run` by a pipe, and answers come back by another.

A value is bytes, an object a number. What `force` has answered is there after any crash, and of the lines of a group all or
none. They are sent at its end, so none is there where this program dies before that; of up to 4,096 bytes, also within it.
"""
import contextlib
import subprocess


class Refused(Exception):
    """The store's answer, where it is no success: `bad`, `refused WHY`, `full ..` or `end ..`."""


class Store:
    def __init__(self, folder):
        self.run = subprocess.Popen(["redo", "-C", folder, "run"], stdin=subprocess.PIPE, stdout=subprocess.PIPE)

    def ask(self, *words):
        """The answer to one line."""
        return self.ask_all([words])[0]

    def ask_all(self, lines):
        """The answers to several lines. So many are sent ahead as a pipe holds, so neither side waits for the other."""
        answers, batch, size = [], [], 0
        for words in lines:
            line = " ".join(map(str, words)) + "\n"
            if size + len(line) > 65536:
                answers += self.exchange(batch)
                batch, size = [], 0
            batch.append(line)
            size += len(line)
        return answers + self.exchange(batch)

    def exchange(self, batch):
        self.run.stdin.write("".join(batch).encode())
        self.run.stdin.flush()
        answers = [self.read() for _ in batch]
        for answer in answers:
            if answer.split()[0] in ("bad", "refused", "full", "end"):
                raise Refused(answer)
        return answers

    def read(self):
        answer = self.run.stdout.readline().decode()
        if not answer.endswith("\n"):
            raise ConnectionError(f"redo ended with status {self.run.wait()}")
        return answer.strip()

    def put(self, number, value):
        self.ask("put", number, value.hex() or "-")

    def get(self, number):
        answer = self.ask("get", number)
        return b"" if answer == "-" else bytes.fromhex(answer)

    def copy(self, source, target):
        self.ask("copy", source, target)

    def force(self):
        """All that was answered so far is on the disk. Answers how many commands since `init` are."""
        return int(self.ask("force").split()[1])

    @contextlib.contextmanager
    def group(self):
        """A list of lines, which are sent together at the end of the block, and not at all where it raises."""
        lines = []
        yield lines
        self.ask_all([("begin",), *lines, ("end",)])

    def close(self):
        """The end of the input: an open group is closed, and all is forced. Answers the status."""
        self.run.stdin.close()
        return self.run.wait()
