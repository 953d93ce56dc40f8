"""Random runs of the bench.

Each case has a random command line, a random input and usually a fault script. Buses have 1 to 16 interfaces, and
sessions open them. The input contains every command of the protocol with valid and invalid words, messages that are cut
or too long, and attempts with every verdict. Some cases contain FD frames. There are few identifiers, so that frames
compete. A few cases have an error in a line, the script or the options.
"""

import itertools
import os
import random

SCRIPT = "faults.script"

# Identifiers that begin with the same bits, such as 048C0000 and 123.
IDENTIFIERS = [
    "123", "124", "122", "0", "7FF", "7ff", "00", "048C0000", "048c0001", "048FFFFF", "04900000", "00000123",
    "1FFFFFFF", "80000123", "848C0000",
]  # fmt: skip
# Words of filters: masks, and identifiers with and without bits 29 to 31.
FILTER_WORDS = [
    "123", "80000123", "20000123", "A0000123", "40000123", "0", "7FF", "C00007FF", "dfffffff", "80000000",
    "1FFFFFFF", "700", "48C0000", "20000000",
]  # fmt: skip
# Lengths of FD frames.
FD_LENGTHS = [0, 1, 2, 4, 8, 12, 16, 20, 24, 32, 48, 64]
# Messages that are wrong, or that the mode of the session does not allow.
FAULTY = [
    "", "send", "send 123", "send 123 1", "send 123 0 1", "send 1234 0", "send 800 0", "send A0000123 0",
    "send 123 9", "send 123 x", "send 123 00", "send g 0", "send 123 1 100", "send 123 1 g", "send 123 2 g",
    "sendrtr 123", "sendrtr 123 9", "sendrtr 123 1 0", "sendrtr 20000000 1", "filter", "filter x", "filter 1",
    "filter 1 123", "filter 0 1", "filter 513", "filter 1000 1", "filter 2 1 20000000 x 1", "filter 1 x 20000000",
    "filter 1 123 g", "filter 1 123 20000000", "filter 1 123456789 0", "join", "join 2", "join 0 0", "loopback x",
    "recvown 01", "errmask", "errmask g", "errmask 123456789", "errdata", "errdata 2", "stats 1", "restart 0",
    "close 1", "echo echo", "sendfd", "sendfd 123", "sendfd 123 9", "sendfd 123 012", "sendfd 123 12 1",
    "sendfd 123 65", "sendfd 123 1 g", "fdframes", "fdframes 2", "fdframes 1 1", "fdframe", "rawmode 1", "open",
    "open can0 can1", "bcmmode", "bcmmode 1 2", "isotpmode", "controlmode", "Send 123 0", "stat",
]  # fmt: skip
# Further messages. Older programs that are compared with canbusd may not support them.
NEWER = [
    "sendfdx", "sendfdx 1", "sendfdx 4 123 0", "sendfdx 01 123 0", "sendfdx 1 123 9", "sendfdx x 123 0", "fdframex",
    "load 1",
]  # fmt: skip
BLANKS = [" ", " ", " ", "  ", "\t", " \t", "\r", " \r "]
NAMES = [
    "can0", "can1", "vcan0", "a", "b-c", "x.y_z", "Can0", "CAN", "body", "engine-1", "0", "longest-name.15", "d1",
    "d2", "d3", "d4", "d5", "d6",
]  # fmt: skip
GOOD, MIXED, SEVERE = 0, 1, 2


class Case:
    """A command line without the program, the input, and the script as bytes or None."""

    def __init__(self, words, text, script):
        self.words, self.text, self.script = words, text, script

    def write_to(self, folder):
        os.makedirs(folder, exist_ok=True)
        parts = {"args": "\n".join(self.words).encode() + b"\n", "stdin": self.text, SCRIPT: self.script}
        for name, content in parts.items():
            if content is not None:
                with open(os.path.join(folder, name), "wb") as file:
                    file.write(content)


class Maker:
    """Creates cases from a source of random numbers."""

    def __init__(self, seed, has_newer=True):
        self.random = random.Random(seed)
        # Whether cases may have FD frames with flags, and the message `load`.
        self.has_newer = has_newer
        # Whether the sessions of a case send FD frames.
        self.fd = False

    def chance(self, share):
        return self.random.random() < share

    def blank(self):
        return self.random.choice(BLANKS)

    def case(self):
        names = self.random.sample(NAMES, self.random.choice([1, 2, 2, 2, 3, 3, 4, 8, 16]))
        attempts = self.random.choice([5, 20, 60, 150, 400])
        self.fd = self.chance(0.4)
        mood = self.random.choice([GOOD, MIXED, MIXED, SEVERE])
        words = ["bench"] + self.options()
        bus, script = ",".join(self.named(names)), None
        if not self.chance(0.2):
            bus, script = f"{bus}@{SCRIPT}", self.script(names, attempts, mood)
        elif self.chance(0.2):
            bus += self.random.choice(["@", "@none", "@none@none", "@."])
        words.insert(self.random.choice([1, len(words)]), bus)
        return Case(words, self.text(names, attempts), script)

    def named(self, names):
        if not self.chance(0.03):
            return names
        other = self.random.choice([names[0], "", "sixteen-bytes-xx", "no name", "caf\u00e9"])
        return names + [other]

    def options(self):
        words = []
        if self.chance(0.5):
            words += ["--ack", self.random.choice(["always", "peers", "peers"])]
        if self.chance(0.3):
            words += ["--report"]
        for option, values, faulty in [
            ("--txqueue", ["1", "2", "3", "010", "1024"], ["0", "1025"]),
            ("--rxqueue", ["1", "2", "5", "65536"], ["0", "65537"]),
            ("--limit", ["1", "2", "10", "40", "200", "16777216"], ["0", "16777217"]),
            ("--auto-restart", ["0", "1", "2", "3", "10", "1000000"], ["1000001"]),
        ]:
            if self.chance(0.25):
                words += [option, self.random.choice(values)]
            elif self.chance(0.01):
                words += [option, self.random.choice(faulty)]
            elif self.chance(0.005):
                words += [option, self.random.choice(["+5", "x", "", "4294967296"])]
        return words

    # Make the script.

    def script(self, names, attempts, mood):
        numbers = [number for number in range(attempts) if self.chance([0.2, 0.6, 0.95][mood])]
        if self.chance(0.3):
            self.random.shuffle(numbers)
        kinds = self.random.sample(range(6), self.random.randint(1, 6))
        lines = [f"{number} {self.verdict(names, kinds)}" for number in numbers]
        for _ in range(self.random.randint(0, 3)):
            lines.insert(self.random.randint(0, len(lines)), self.random.choice(["", "#", "# 0 good"]))
        if self.chance(0.06):
            fault = self.random.choice(
                [
                    "0",
                    "x good",
                    "000000000 good",
                    "0  good",
                    "0 good ",
                    "0 Good",
                    "0 global",
                    "0 local crc",
                    "0 local crc ,",
                    "0 local crc nobody",
                    "0 local crc nobody,",
                    "99999999 good\n99999999 lastbit",
                    "0 local bit can0",
                    "+1 good",
                    "0 good\r",
                    "0 local crc " + "n" * 16,
                ]
            )
            lines.insert(self.random.randint(0, len(lines)), fault)
        text = "\n".join(lines).encode()
        if self.chance(0.01):
            text += b"\n# \xff"
        return text + self.random.choice([b"\n", b"\n", b""])

    def verdict(self, names, kinds):
        kind = self.random.choice(kinds)
        if kind < 4:
            return ["lastbit", "global bit", "global form", "good"][kind]
        among = self.random.choices(names, k=self.random.choice([1, 1, 2, 3]))
        return f"local {self.random.choice(['stuff', 'crc', 'form'])} {','.join(among)}"

    # Make the input.

    def text(self, names, attempts):
        started, lines = [], []
        for number in self.random.sample(range(1, 65), self.random.choice([1, 2, 3, 5, 12, 64])):
            started.append(number)
            lines.append(f"session {number}")
            if not self.chance(0.1):
                lines.append(f"feed {number} {self.opening(names)}")
        left = attempts
        while left > 0:
            kind = self.random.random()
            session = self.random.choice(started)
            if kind < 0.35:
                lines.append(f"feed {session} {self.messages(names)}")
            elif kind < 0.85:
                lines.append("attempt")
                left -= 1
            elif kind < 0.92:
                lines.append(f"drain {session}")
            elif kind < 0.922:
                lines.append(f"end {session}")
            else:
                lines.append(self.plain_line())
        lines += [f"drain {session}" for session in started]
        if self.chance(0.2):
            lines.insert(self.random.randint(0, len(lines)), self.bad_line(started))
        text = "\n".join(lines).encode("utf-8", "surrogateescape")
        return text + self.random.choice([b"\n", b"\n", b""])

    def plain_line(self):
        if self.chance(0.6):
            seconds = self.random.choice(
                ["0", "1", "23", "007", "9999999999", str(self.random.randint(0, 10**10 - 1))]
            )
            return f"at {seconds}.{self.random.randint(0, 999999):06}"
        return self.random.choice(["", "#", "# drain 99", "#" * 4096])

    def bad_line(self, started):
        free = [number for number in range(1, 65) if number not in started]
        return self.random.choice(
            [
                "attempt ",
                " attempt",
                "Attempt",
                "attempt\r",
                "at 1",
                "at 1.00000",
                "at 12345678901.000000",
                "at .000000",
                "at 1.0000000",
                "at -1.000000",
                "session 0",
                "session 65",
                "session 01",
                f"session {started[0]}",
                "drain",
                f"drain {started[0]} ",
                f"drain 0{started[0]}",
                f"feed {started[0]}",
                "feed 0 < rawmode >",
                "\r",
                " ",
                "#" * 4097,
                f"drain {free[0]}" if free else "drain 65",
                "send 1 < rawmode >",
            ]
        )

    def opening(self, names):
        text = self.message("open", self.random.choice(names))
        text += self.message("rawmode") if self.chance(0.95) else ""
        return text + (self.message("fdframes", "1") if self.chance(self.fd * 0.6) else "")

    def messages(self, names):
        text = "".join(self.any_message(names) for _ in range(self.random.choice([1, 1, 1, 2, 3, 12])))
        if self.chance(0.04):
            return text[: self.random.randint(0, len(text))]
        if self.chance(0.02):
            return text + "<" + self.random.choice(["x", " ", "send 123 0 "]) * self.random.choice([85, 500, 1023])
        return text

    def any_message(self, names):
        kind = self.random.random()
        if kind < 0.55:
            command, lengths = ("sendfd", FD_LENGTHS) if self.chance(self.fd / 2) else ("send", [0, 1, 2, 4, 8])
            data = [self.byte() for _ in range(self.random.choice(lengths))]
            words = [self.random.choice(IDENTIFIERS), str(len(data)), *data]
            if command == "sendfd" and self.has_newer and self.chance(0.5):
                return self.message("sendfdx", self.random.choice("0123"), *words)
            return self.message(command, *words)
        if kind < 0.6:
            return self.message("sendrtr", self.random.choice(IDENTIFIERS), str(self.random.randint(0, 8)))
        if kind < 0.68:
            count = self.random.choice([0, 0, 1, 1, 2, 3, 8])
            pairs = [self.random.choice(FILTER_WORDS) for _ in range(2 * count)]
            return self.message("filter", self.random.choice([str(count), f"{count:03}"]), *pairs)
        if kind < 0.76:
            return self.message(
                self.random.choice(["join", "loopback", "recvown", "errdata"] + ["fdframes"] * 3 * self.fd),
                self.random.choice("01"),
            )
        if kind < 0.81:
            return self.message(
                "errmask", self.random.choice(["0", "204", "140", "88", "a0", "3FF", "1fffffff", "E0000000"])
            )
        if kind < 0.88:
            words = ["stats", "stats", "stats", "restart", "restart", "echo", "rawmode"]
            return self.message(self.random.choice(words + ["load", "down"] * self.has_newer))
        if kind < 0.885:
            return self.message("close")
        if kind < 0.91:
            return self.message("open", self.random.choice(names + ["nobody", "can0,can1", "caf\u00e9", "\udcff"]))
        return self.message(*self.random.choice(FAULTY + NEWER * self.has_newer).split(" "))

    def byte(self):
        return self.random.choice([f"{self.random.randint(0, 255):02x}", f"{self.random.randint(0, 255):X}"])

    def message(self, *words):
        if not self.chance(0.1):
            return f"< {' '.join(words)} >"
        before = self.random.choice(["", "x", " > ", "< rawmode < "])
        inside = "".join(itertools.chain.from_iterable((word, self.blank()) for word in words))
        return f"{before}<{self.random.choice(['', self.blank()])}{inside}>"
