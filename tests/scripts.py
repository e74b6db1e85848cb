"""Random scripts for the shell, the same in every run: mostly small blocks with many false sets, so that what is false
matters; with calls that are refused, damaged files, trials, and lines that are no command."""
import random

KINDS = ("arcs", "delays", "bounds", "false")
NAMES = {"arcs": "from,to", "delays": "arc,ticks", "bounds": "node,side,ticks", "false": "set,from,to"}


class Script:
    """Lines for the shell, and the files that they load."""

    def __init__(self, seed):
        self.dice = random.Random(seed)
        self.nodes = self.dice.choice((4, 6, 8, 12, 30))
        self.lines, self.files = [], {}
        if self.dice.random() < 0.8:
            self.build()
        for _ in range(self.dice.randrange(5, 60)):
            self.step()
        self.look()

    def build(self):
        """A block that can be timed, with a few false sets."""
        arcs = [self.rising() for _ in range(2 * self.nodes)]
        self.lines += [f"arc {tail} {head}" for tail, head in arcs]
        self.delays()
        for side, first in (("start", 0), ("end", self.nodes // 2)):
            nodes = [first + self.dice.randrange((self.nodes + 1) // 2) for _ in range(3)]
            self.lines += [f"{side} {node} {self.dice.randrange(300)}" for node in nodes]
        for _ in range(self.dice.randrange(5)):
            (tail, middle), (_, head) = self.dice.choice(arcs), self.dice.choice(arcs)
            self.lines.append(f"pair {self.dice.randrange(4)} {tail} {max(middle, head)}")

    def delays(self):
        """Delays for all arcs, at times so long that a margin or a trim takes them out of range."""
        longest = 1_000_001 if self.dice.random() < 0.1 else 200
        rows = [f"{number},{self.dice.randrange(-20, longest)}" for number in range(4 * self.nodes)]
        self.files["delays"] = "\n".join(["arc,ticks", *rows, f"end,{len(rows)}", ""]).encode()
        self.lines.append("load delays delays")

    def node(self):
        return self.dice.randrange(self.nodes) if self.dice.random() < 0.97 else self.dice.choice((-1, 255, 256, 99999999999))

    def rising(self):
        tail = self.dice.randrange(self.nodes - 1)
        return (tail, self.dice.randrange(tail + 1, self.nodes)) if self.dice.random() < 0.95 else (self.node(), self.node())

    def arc(self):
        return self.dice.randrange(3 * self.nodes) if self.dice.random() < 0.97 else self.dice.choice((-1, 1023, 1024))

    def ticks(self):
        far = (1_000_000, -1_000_000, 1_000_001, 2**40)
        return self.dice.randrange(-60, 200) if self.dice.random() < 0.96 else self.dice.choice(far)

    def set(self):
        return self.dice.randrange(4) if self.dice.random() < 0.9 else self.dice.choice((15, 16, -1, 9))

    def value_line(self, kind):
        if kind == "arcs":
            tail, head = self.rising()
            return f"{tail},{head}"
        if kind == "delays":
            return f"{self.arc()},{self.ticks()}"
        if kind == "bounds":
            return f"{self.node()},{self.dice.choice('se')},{self.ticks()}"
        tail, head = self.rising()
        return f"{self.set()},{tail},{head}"

    def text(self, kind):
        """A file of a kind, which may have been damaged."""
        count = self.dice.randrange(0, 3 * self.nodes if kind in ("arcs", "delays") else 4)
        lines = [self.value_line(kind) for _ in range(count)]
        text = "\n".join([NAMES[kind], *lines, f"end,{len(lines)}", ""])
        if self.dice.random() < 0.2:
            at = self.dice.randrange(len(text) + 1)
            damage = self.dice.choice(("", "x", ",", "\n", "-", "0"))
            text = self.dice.choice((text[:at], text[:at] + damage + text[at:], text[:at] + damage + text[at + 1:], text + damage))
        return text

    def load(self, kind):
        path = f"f{len(self.files)}"
        self.files[path] = self.text(kind).encode()
        self.lines.append(f"load {kind} {path}")

    def look(self):
        self.lines += ["time", "sheet", "slacks"] + [f"trace {self.node()}" for _ in range(3)]

    def trial(self):
        self.lines.append(f"trial {self.arc()} {self.ticks()}")
        self.look()
        self.lines += self.dice.sample(["arc 0 1", "# nothing", "margin off", "load arcs f0", "trial 0 0", "lines 3"], 2)
        self.lines.append("endtrial")

    def step(self):
        dice, roll = self.dice, self.dice.random()
        if roll < 0.3:
            self.load(dice.choice(KINDS))
        elif roll < 0.45:
            self.look()
        elif roll < 0.5:
            self.trial()
        elif roll < 0.55:
            other = ["", "  # a remark", "arc 1", "drop x", "pair 1 2 3 4", "no such", "endtrial", "measure slow", "trace", "margin"]
            self.lines.append(dice.choice(other))
        elif roll < 0.6:
            lengths = (0, 3, 8, 4096, 4096, 4097, 2**31 - 2, 2**31 - 1, 2**40, -1)
            changes = [f"lines {dice.choice(lengths)}", f"margin {dice.choice((0, 999, 1001, 1500, 1999, 2500, 65535, 65536))}"]
            measures = [f"measure {name}" for name in ("ticks", "staged", "early", "early-staged")]
            self.lines.append(dice.choice(changes + measures + ["margin off"]))
        else:
            self.lines.append(self.call())

    def call(self):
        tail, head = self.rising()
        calls = [f"arc {tail} {head}"] * 4 + [f"pair {self.set()} {tail} {head}"] * 3
        calls += [f"start {self.node()} {self.ticks()}", f"end {self.node()} {self.ticks()}"] * 2
        calls += [f"drop {self.arc()}", f"trim {self.arc()} {self.ticks()}", f"clear {self.set()}"]
        return self.dice.choice(calls)
