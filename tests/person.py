"""A person who answers the shell's commands with pencil and paper: from docs/files.md, docs/graph.md, docs/timing.md,
docs/sheet.md and docs/program.md, and with nothing of the program's. Where a block has few enough complete paths, each
slack and each shown path is also held against the list of all its open complete paths."""
LIMIT = 1_000_000
NO_ARC, NO_LINE, MOST_LINES, SIDES = 1024, 4096, 4096, {"s": "starts", "e": "ends"}
NAMES = {"arcs": ["from", "to"], "delays": ["arc", "ticks"], "bounds": ["node", "side", "ticks"], "false": ["set", "from", "to"]}
# A block with more complete paths than these is not listed.
MOST_PATHS = 3_000


class Refused(Exception):
    """A call's refusal: its number, and the words behind it in the answer."""

    def __init__(self, number, more=""):
        super().__init__(number, more)
        self.number, self.more = number, more


class NoCommand(Exception):
    """A line that is no command, or none that is served now."""


def in_range(number, least, most):
    if not least <= number <= most:
        raise Refused(6)
    return number


def node(number):
    return in_range(number, 0, 255)


def ticks_in_range(number):
    return in_range(number, -LIMIT, LIMIT)


# Files

def number_in(field):
    """One to seven digits, a minus sign where below zero, no leading zero and no -0."""
    digits = field[1:] if field.startswith("-") else field
    well = 1 <= len(digits) <= 7 and all(c in "0123456789" for c in digits)
    if not well or (digits[0] == "0" and field != "0"):
        raise ValueError
    return int(field)


def value_in(name, field):
    if name != "side":
        return number_in(field)
    if field not in SIDES:
        raise ValueError
    return field


def records(kind, data):
    """The value lines of a file, each with its number, as a dictionary by name, or the refusal when it is met."""
    if not data:
        raise Refused(1, " line 0")
    if len(data) > 60_000:
        raise Refused(2, " line 0")
    *lines, tail = data.decode("latin-1").split("\n")
    if not lines or sorted(lines[0].split(",")) != sorted(NAMES[kind]):
        raise Refused(3, " line 1")
    names = lines[0].split(",")
    for at, line in enumerate(lines[1:], 2):
        fields = line.split(",")
        if fields[0] == "end":
            if line != f"end,{at - 2}" or at < len(lines) or tail:
                raise Refused(5, f" line {at if line != f'end,{at - 2}' else at + 1}")
            return
        try:
            if len(fields) != len(names):
                raise ValueError
            record = {name: value_in(name, field) for name, field in zip(names, fields)}
        except ValueError:
            raise Refused(4, f" line {at}") from None
        yield at, record
    last = len(lines) + 1
    raise Refused(5 if tail == "" or tail.split(",")[0] == "end" else 4, f" line {last}")


# The graph

class Graph:
    def __init__(self):
        self.taken, self.arcs, self.starts, self.ends, self.sets = 0, {}, {}, {}, [set() for _ in range(16)]

    def copy(self):
        other = Graph()
        other.taken, other.starts, other.ends = self.taken, dict(self.starts), dict(self.ends)
        other.arcs = {number: list(arc) for number, arc in self.arcs.items()}
        other.sets = [set(held) for held in self.sets]
        return other

    def arc(self, tail, head):
        node(tail), node(head)
        if tail >= head:
            raise Refused(7)
        if self.taken == NO_ARC:
            raise Refused(8)
        self.arcs[self.taken] = [tail, head, 0]
        self.taken += 1
        return f"arc {self.taken - 1}"

    def live(self, number):
        in_range(number, 0, NO_ARC - 1)
        if number not in self.arcs:
            raise Refused(9)
        return self.arcs[number]

    def drop(self, number):
        self.live(number)
        if any(number in held for held in self.sets):
            raise Refused(10)
        del self.arcs[number]

    def bound(self, side, at, ticks):
        node(at), ticks_in_range(ticks)
        getattr(self, SIDES[side])[at] = ticks

    def trim(self, number, ticks):
        in_range(number, 0, NO_ARC - 1), ticks_in_range(ticks)
        self.live(number)[2] = ticks

    def reached(self, first, ahead):
        """The nodes that paths from a node come to, or, going back, those that paths to it come from."""
        seen, todo = {first}, [first]
        while todo:
            here = todo.pop()
            for tail, head, _ in self.arcs.values():
                near, far = (tail, head) if ahead else (head, tail)
                if near == here and far not in seen:
                    seen.add(far)
                    todo.append(far)
        return seen

    def pair(self, number, first, last):
        in_range(number, 0, 15), node(first), node(last)
        ahead, behind = self.reached(first, True), self.reached(last, False)
        between = {n for n, (tail, head, _) in self.arcs.items() if tail in ahead and head in behind}
        if first == last or not between:
            raise Refused(11)
        self.sets[number] |= between

    def clear(self, number):
        self.sets[in_range(number, 0, 15)] = set()

    def load(self, kind, data):
        """All of the file's calls, made in order on a copy that the caller keeps if none was refused."""
        for at, record in records(kind, data):
            try:
                if kind == "arcs":
                    self.arc(record["from"], record["to"])
                elif kind == "bounds":
                    self.bound(record["side"], record["node"], record["ticks"])
                else:
                    self.pair(record["set"], record["from"], record["to"])
            except Refused as refusal:
                raise Refused(refusal.number, f" line {at}") from None


# Measures

class Measure:
    def __init__(self, name):
        self.staged, self.sign = name.endswith("staged"), -1 if name.startswith("early") else 1

    def row(self, ticks, stages):
        return tuple(self.sign * place for place in ((ticks, stages) if self.staged else (ticks,)))

    def time(self, ticks):
        return self.row(ticks, 0)

    def arc(self, ticks):
        return self.row(ticks, 1)


def plus(a, b):
    return tuple(x + y for x, y in zip(a, b))


def minus(a, b):
    return tuple(x - y for x, y in zip(a, b))


# A block, its sheet and its paths

class Block:
    def __init__(self, graph, rows, margin, measure):
        self.starts = {at: measure.time(t) for at, t in graph.starts.items()}
        self.ends = {at: measure.time(t) for at, t in graph.ends.items()}
        self.zero = measure.time(0)
        self.arcs = {}
        for number in sorted(graph.arcs):
            tail, head, trim = graph.arcs[number]
            ticks = asked(rows, margin, number) + trim
            if abs(ticks) > LIMIT:
                raise Refused(13, f" arc {number}")
            held = frozenset(s for s in range(16) if number in graph.sets[s])
            self.arcs[number] = (tail, head, measure.arc(ticks), held)
        self.begin, self.end = {}, {}
        for at in range(256):
            left = frozenset(s for arc in self.arcs.values() if arc[0] == at for s in arc[3])
            entered = frozenset(s for arc in self.arcs.values() if arc[1] == at for s in arc[3])
            self.begin[at], self.end[at] = left - entered, entered - left
        self.out = {at: [n for n, arc in self.arcs.items() if arc[0] == at] for at in range(256)}

    def passed(self, tag, number):
        """The tag with which an arrival passes an arc, or None where it is dropped."""
        tail, head, _, held = self.arcs[number]
        after = (tag | self.begin[tail]) & held
        return None if after & self.end[head] else after

    def sheet(self):
        arrivals = {at: {} for at in range(256)}
        for at, row in self.starts.items():
            arrivals[at][frozenset()] = [(row, None, None)]
        lines = []
        for at in range(256):
            for tag in sorted(arrivals[at], key=tag_number):
                links = arrivals[at][tag]
                latest = max(row for row, _, _ in links)
                # of equals the start, then the lowest arc, then the lowest line
                order = lambda link: (-1, -1) if link[1] is None else link[1:]
                row, back_arc, back_line = min((link for link in links if link[0] == latest), key=order)
                lines.append({"node": at, "tag": tag, "arrival": row, "back": (back_arc, back_line)})
                for number in self.out[at]:
                    after = self.passed(tag, number)
                    if after is not None:
                        link = (plus(row, self.arcs[number][2]), number, len(lines) - 1)
                        arrivals[self.arcs[number][1]].setdefault(after, []).append(link)
        at_line = {(line["node"], line["tag"]): i for i, line in enumerate(lines)}
        for line in reversed(lines):
            asks = [(self.ends[line["node"]], -1, None)] if line["node"] in self.ends else []
            for number in self.out[line["node"]]:
                after = self.passed(line["tag"], number)
                if after is None:
                    continue
                there = at_line[self.arcs[number][1], after]
                if lines[there]["required"] is not None:
                    asks.append((minus(lines[there]["required"], self.arcs[number][2]), number, there))
            row, fore_arc, fore_line = min(asks, key=lambda ask: ask[:2], default=(None, -1, None))
            line["required"], line["fore"] = row, (None if fore_line is None else fore_arc, fore_line)
        return lines

    def slacks(self, lines):
        """For each node with a slack, the slack and its line."""
        least = {}
        for i, line in enumerate(lines):
            if line["required"] is not None:
                slack = minus(line["required"], line["arrival"])
                if line["node"] not in least or slack < least[line["node"]][0]:
                    least[line["node"]] = (slack, i)
        return least

    def is_open(self, first, path):
        """No stretch of the path has all arcs in one set and goes from where the set begins to where it ends."""
        nodes = [first] + [self.arcs[number][1] for number in path]
        for i in range(len(path)):
            for j in range(i + 1, len(path) + 1):
                for s in frozenset.intersection(*(self.arcs[n][3] for n in path[i:j])):
                    if s in self.begin[nodes[i]] and s in self.end[nodes[j]]:
                        return False
        return True

    def complete_paths(self):
        """Every complete path as its first node and its arcs, or None where they are too many."""
        paths, todo = [], [(first, first, ()) for first in self.starts]
        while todo:
            first, last, path = todo.pop()
            if last in self.ends:
                paths.append((first, path))
            todo += [(first, self.arcs[number][1], path + (number,)) for number in self.out[last]]
            if len(paths) + len(todo) > MOST_PATHS:
                return None
        return paths

    def slack_of(self, first, path):
        last, slack = self.arcs[path[-1]][1] if path else first, self.starts[first]
        for number in path:
            slack = plus(slack, self.arcs[number][2])
        return minus(self.ends[last], slack)

    def least_by_list(self):
        """For each node with an open complete path through it, the least slack of those; None where not listed."""
        paths = self.complete_paths()
        if paths is None:
            return None
        least = {}
        for first, path in paths:
            if self.is_open(first, path):
                slack = self.slack_of(first, path)
                for at in [first] + [self.arcs[number][1] for number in path]:
                    least[at] = min(least.get(at, slack), slack)
        return least


def tag_number(tag):
    return sum(2**s for s in tag)


def asked(rows, margin, number):
    """The ticks that the annotated table, under a margin if there is one, has for an arc."""
    if number not in rows:
        raise Refused(12, f" cause 1 arc {number} level 0")
    if margin is None:
        return rows[number]
    ticks = -(-rows[number] * min(max(margin, 1000), 2000) // 1000)
    if abs(ticks) > LIMIT:
        raise Refused(12, f" cause 3 arc {number} level 1")
    return ticks


def commas(row):
    return ",".join(str(place) for place in row)


# The shell

class Person:
    def __init__(self, read_file):
        """`read_file` gives a path's bytes."""
        self.read_file, self.graph, self.rows, self.margin = read_file, Graph(), {}, None
        self.measure, self.length, self.before_trial = Measure("ticks"), MOST_LINES, None
        self.listed = 0
        self.blank()

    def blank(self):
        self.block, self.lines, self.least = None, [], {}

    def answer(self, line):
        """The answer to a line of the input, as a list of lines. What is wrong with no command is left out."""
        words = line.split()
        if not words or words[0].startswith("#"):
            return []
        try:
            return self.served(words[0], words[1:])
        except Refused as refusal:
            return [f"refused {refusal.number}{refusal.more}"]
        except NoCommand:
            return ["error: "]

    def served(self, name, words):
        looks = {"time": (self.time, 0), "sheet": (self.sheet, 0), "slacks": (self.slacks, 0), "trace": (self.trace, 1)}
        if name in looks:
            look, count = looks[name]
            return look(*numbers(words, count))
        if name == "endtrial":
            numbers(words, 0)
            if self.before_trial is None:
                raise NoCommand
            self.graph, self.before_trial = self.before_trial, None
            return ["ok"]
        if self.before_trial is not None:
            raise NoCommand
        return [self.edited(name, words) or "ok"]

    def edited(self, name, words):
        graph, calls = self.graph, {"arc": 2, "drop": 1, "trim": 2, "pair": 3, "clear": 1}
        if name in calls:
            return getattr(graph, name)(*numbers(words, calls[name]))
        if name in ("start", "end"):
            return graph.bound(name[0], *numbers(words, 2))
        if name == "trial":
            arc, ticks = numbers(words, 2)
            self.before_trial = graph.copy()
            return graph.trim(arc, ticks)
        if name == "load":
            return self.load(*words) if len(words) == 2 and words[0] in NAMES else wrong()
        if name == "margin":
            self.margin = None if words == ["off"] else in_range(*numbers(words, 1), 0, 65_535)
        elif name == "lines":
            self.length = in_range(*numbers(words, 1), 0, 2**31 - 2)
            self.blank()
        elif name == "measure" and words in [["ticks"], ["staged"], ["early"], ["early-staged"]]:
            self.measure = Measure(words[0])
            self.blank()
        else:
            raise NoCommand

    def load(self, kind, path):
        try:
            data = self.read_file(path)
        except FileNotFoundError:
            raise NoCommand from None
        if kind == "delays":
            rows = dict(self.rows)
            for at, record in records(kind, data):
                if not 0 <= record["arc"] < NO_ARC or abs(record["ticks"]) > LIMIT:
                    raise Refused(6, f" line {at}")
                rows[record["arc"]] = record["ticks"]
            self.rows = rows
        else:
            graph = self.graph.copy()
            graph.load(kind, data)
            self.graph = graph

    def time(self):
        self.blank()
        if self.length > MOST_LINES:
            raise Refused(14)
        block = Block(self.graph, self.rows, self.margin, self.measure)
        lines = block.sheet()
        if len(lines) > self.length:
            raise Refused(15)
        self.block, self.lines, self.least = block, lines, block.slacks(lines)
        by_list = block.least_by_list()
        if by_list is not None:
            self.listed += 1
            assert by_list == {at: slack for at, (slack, _) in self.least.items()}, "the list and the sheet differ"
        return [f"lines {len(lines)}"]

    def sheet(self):
        def link(arc, line):
            return f"{NO_ARC if arc is None else arc} {NO_LINE if line is None else line}"

        def shown(i, line):
            required = "none" if line["required"] is None else commas(line["required"])
            return (f"line {i} node {line['node']} tag {tag_number(line['tag'])} arrival {commas(line['arrival'])} "
                    f"back {link(*line['back'])} required {required} fore {link(*line['fore'])}")

        return [shown(i, line) for i, line in enumerate(self.lines)] + ["end"]

    def slacks(self):
        least = sorted(self.least.items())
        return [f"node {at} slack {commas(slack)} line {line}" for at, (slack, line) in least] + ["end"]

    def trace(self, at):
        if self.length > MOST_LINES:
            raise Refused(14)
        node(at)
        if at not in self.least:
            return ["none"]
        slack, line = self.least[at]
        back, fore, here = [], [], line
        while self.lines[here]["back"][0] is not None:
            arc, here = self.lines[here]["back"]
            back.insert(0, arc)
        first, here = self.lines[here]["node"], line
        while self.lines[here]["fore"][0] is not None:
            arc, here = self.lines[here]["fore"]
            fore.append(arc)
        path = back + fore
        assert self.block.is_open(first, path) and self.block.slack_of(first, path) == slack, "the path is another's"
        return [" ".join(["path"] + [str(arc) for arc in path])]


def wrong():
    raise NoCommand


def numbers(words, count):
    """As many decimal numbers as a command takes."""
    def is_number(word):
        digits = word[1:] if word.startswith("-") else word
        return digits != "" and all(c in "0123456789" for c in digits)

    if len(words) != count or not all(is_number(word) for word in words):
        raise NoCommand
    return [int(word) for word in words]
