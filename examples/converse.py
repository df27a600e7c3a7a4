"""Drives the program `converse` over a pipe: rules that change, and questions by the rules as they stand.

    with Conversation("crates/converse/out/converse") as rules:
        rules.rule("A = i:B")
        rules.rule("B =")
        rules.ask(4, "A")  # yes
        rules.forget("B")
        rules.ask(4, "A")  # no
"""
import subprocess


class Conversation:
    """One process. A line that it calls malformed raises ValueError, and one that it has no memory for MemoryError: then no rule
    changed."""

    def __init__(self, *command):
        self.process = subprocess.Popen(command, stdin=subprocess.PIPE, stdout=subprocess.PIPE, text=True)
        self.sent = 0

    def rule(self, text):
        """One more rule, as `A = i:B c:C` or `~A =`."""
        self.change(f"rule {text}")

    def forget(self, name):
        """The rules of the name go."""
        self.change(f"forget {name}")

    def ask(self, depth, name):
        """`yes`, `no`, `maybe` or `overflow`."""
        number = self.send(f"ask {depth} {name}")
        told = self.read()
        refuse(number, told)
        _, verdict, *rest = told.split()
        if verdict == "fault" or rest[-1] == "unchecked":
            raise RuntimeError(told)
        return verdict

    def change(self, line):
        # Of a change that was made nothing is told. So a question follows it, which is told of in either case.
        number = self.send(line)
        self.send("ask 0 _")
        told = self.read()
        if told.startswith(f"line {number}: "):
            self.read()
        refuse(number, told)

    def send(self, line):
        if "\n" in line:
            raise ValueError(f"more than one line: {line!r}")
        self.process.stdin.write(f"{line}\n")
        self.process.stdin.flush()
        self.sent += 1
        return self.sent

    def read(self):
        told = self.process.stdout.readline()
        if not told:
            raise EOFError("the program has ended")
        return told.rstrip("\n")

    def __enter__(self):
        return self

    def __exit__(self, *_):
        self.process.stdin.close()
        self.process.stdout.close()
        self.process.wait()


def refuse(number, told):
    if told.startswith(f"line {number}: "):
        raise MemoryError(told) if told.endswith("memory") else ValueError(told)
