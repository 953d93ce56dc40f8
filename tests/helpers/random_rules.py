"""Random runs of the bench with fault rules: in the script, in lines `fault RULE`, and in messages from a session.
Session 1 has opened the first interface and only gives rules. The other sessions send. So a line of output that begins
with `1 <` answers a message about rules, and a line that begins with `tried` or `idle` is about an attempt.
"""

import os
import random

SCRIPT, RECORD = "faults.script", "run.rec"
NAMES = ["can0", "can1", "next", "id", "skip", "x.y_z", "longest-name.15", "0", "from", "good"]
# Data and remote frames with identifiers of 11 and 29 bits, and FD frames.
FRAMES = [
    "send 123 0", "send 124 1 11", "send 7FF 0", "sendrtr 123 0", "send 00000123 0", "sendrtr 00000123 2",
    "send 1FFFFFFF 1 22", "sendfd 123 0", "sendfd 00000124 1 33", "sendfdx 1 123 0",
]  # fmt: skip
IDENTIFIERS = [
    "123", "123", "124", "7ff", "000", "00000123", "1FFFFFFF", "123:7FF", "123:800007FF", "120:7F0", "0:0", "20000000:0",
    "20000123:7FF", "80000123:9FFFFFFF", "A0000123:9fffffff", "40000000:40000000", "C0000123:DFFFFFFF", "0:80000000",
]  # fmt: skip
VERDICTS = ["good", "lastbit", "global bit", "global form"]
# Words that may replace a word of a rule.
WORDS = [
    "next", "always", "from", "id", "skip", "good", "lastbit", "global", "local", "bit", "crc", "form", "stuff", "0", "1",
    "00000001", "000000001", "99999999", "100000000", "-1", "+1", "1x", "123", "800", "20000000", "123:", ":123",
    "123:20000000", "123:FFFFFFFF", "123:DFFFFFFF", "nobody", "can0,", ",can0", "can0,nobody", "sixteen-bytes-xx", "Good",
    "caf\u00e9",
]  # fmt: skip


class Case:
    """A command line without the program, the script, the operations of the run, and the names of the interfaces. An
    operation is a pair of a kind and a string. Its kind is `attempt`, `send`, `line` with a rule, or `message`.
    """

    def __init__(self, names, words, script, operations):
        self.names, self.words, self.script, self.operations = names, words, script, operations

    @property
    def text(self):
        """Returns the input."""
        lines = ["session 1", f"feed 1 < open {self.names[0]} >"]
        for number, name in enumerate(self.names, 2):
            lines += [f"session {number}", f"feed {number} < open {name} >< rawmode >< fdframes 1 >"]
        for kind, text in self.operations:
            lines.append({"attempt": "attempt", "send": text, "line": f"fault {text}"}.get(kind, f"feed 1 <{text}>"))
        return "".join(f"{line}\n" for line in lines)

    def write_to(self, folder):
        os.makedirs(folder, exist_ok=True)
        for name, text in (("args", "\n".join(self.words)), ("stdin", self.text), (SCRIPT, self.script)):
            with open(os.path.join(folder, name), "w", encoding="utf-8") as file:
                file.write(text)


class RuleMaker:
    """Creates rules and cases from a source of random numbers."""

    def __init__(self, seed):
        self.random = random.Random(seed)

    def chance(self, share):
        return self.random.random() < share

    def some(self, names):
        return ",".join(self.random.choices(names, k=self.random.choice([1, 1, 1, 2, 3])))

    def verdict(self, names):
        if self.chance(0.7):
            return self.random.choice(VERDICTS)
        return f"local {self.random.choice(['crc', 'stuff', 'form'])} {self.some(names)}"

    def rule(self, names):
        """Returns a random rule for a bus with interfaces of these names."""
        count = self.random.choice([1, 1, 2, 3, 8, 32, 99999999])
        words = ["always"] if self.chance(0.2) else ["next", f"{count:0{self.random.choice([1, 1, 8])}}"]
        words += ["from", self.some(names)] if self.chance(0.4) else []
        words += ["id", self.random.choice(IDENTIFIERS)] if self.chance(0.5) else []
        words += ["skip", str(self.random.choice([0, 1, 2, 5, 20]))] if self.chance(0.3) else []
        return " ".join([*words, self.verdict(names)])

    def changed(self, rule):
        """Returns a rule in which one word is dropped, added, moved or replaced, or one character is changed. The result may still
        be a rule."""
        words = rule.split(" ")
        place = self.random.randrange(len(words))
        kind = self.random.randrange(5)
        if kind == 0:
            del words[place]
        elif kind == 1:
            words.insert(place, self.random.choice(WORDS))
        elif kind == 2:
            words[place] = self.random.choice(WORDS)
        elif kind == 3:
            words.insert(self.random.randrange(len(words)), words.pop(place))
        else:
            at = self.random.randrange(len(rule))
            return rule[:at] + self.random.choice(["", "0", "x", "F", ",", ":", rule[at].upper()]) + rule[at + 1 :]
        return " ".join(words)

    def spaced(self, text):
        """Returns a message with these words. Some messages have unusual white space between the words."""
        if self.chance(0.8):
            return f" {text} "
        blanks = [" ", "  ", "\t", " \t "]
        return self.random.choice(blanks) + "".join(word + self.random.choice(blanks) for word in text.split(" "))

    def case(self):
        names = self.random.sample(NAMES, self.random.choice([1, 2, 2, 3, 3, 5]))
        words = ["bench", "--record", RECORD]
        words += ["--ack", self.random.choice(["always", "peers"])] if self.chance(0.3) else []
        words += ["--auto-restart", self.random.choice(["1", "3", "10"])] if self.chance(0.7) else []
        words += ["--report"] if self.chance(0.1) else []
        attempts = self.random.choice([5, 30, 100, 200])
        script = self.script(names, attempts)
        return Case(names, [*words, f"{','.join(names)}@{SCRIPT}"], script, self.operations(names, attempts))

    def script(self, names, attempts):
        """Returns rules, possibly with numbered lines between them."""
        share = self.random.choice([0, 0, 0.1, 0.5])
        lines = [f"{number} {self.verdict(names)}" for number in range(attempts) if self.chance(share)]
        for _ in range(self.random.choice([0, 1, 2, 4, 10, 64])):
            lines.insert(self.random.randint(0, len(lines)), self.rule(names))
        lines.insert(self.random.randint(0, len(lines)), self.random.choice(["", "#", "# next 1 good"]))
        return "\n".join(lines) + self.random.choice(["", "\n"])

    def operations(self, names, attempts):
        """Returns random operations: attempts, frames to send, and rules."""
        found, left = [], attempts
        while left:
            kind = self.random.random()
            if kind < 0.5:
                found.append(("attempt", ""))
                left -= 1
            elif kind < 0.9:
                number = self.random.randrange(len(names)) + 2
                found.append(("send", f"feed {number} < {self.random.choice(FRAMES)} >"))
            elif kind < 0.92:
                found.append(("line", self.rule(names)))
            else:
                found.append(("message", self.spaced(self.message(names))))
        return found

    def message(self, names):
        """Returns a message about rules."""
        kind = self.random.random()
        if kind < 0.3:
            return "faults"
        if kind < 0.4:
            return "nofaults"
        rule = self.rule(names)
        return f"fault {self.changed(rule) if kind < 0.7 else rule}"
