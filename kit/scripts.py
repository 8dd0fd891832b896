"""Scripts for a cache that speaks the line protocol, made from a profile's name and a seed: the same ones on every machine.

A case is a folder's table files and a list of runs, each a list of lines. `PROFILES` names the profiles; each is a function that a Maker is given
and that gives a case. A profile aims at one thing that a cache may get wrong, with few keys, few timestamps and few values, so that writes meet.
"""
import random

import tablefiles

KEYS = ["p", "q", "k%20x", "%00", "A" * 64]
INTS = ["-9223372036854775808", "-3", "-1", "0", "1", "2", "3", "4", "5", "6", "9223372036854775807"]
TEXTS = ["''", "a", "aa", "ab", "b", "%ff", "%20", "Z" * 64]
STAMPS = ["-9223372036854775808", "-1", "0", "1", "2", "3", "4", "5", "9223372036854775807"]
TIMES = ["0", "1", "7", "4294967295"]
VALUES = ["", "5", "12", "a", "ab", "%00", "%FF", "x" * 256]
# What is no number, or seldom one that is within its range.
NUMBERS = ["", "007", "-0", "+1", "0", "1_0", "0x1", "4294967295", "4294967296", "9223372036854775808", "-9223372036854775809", "18446744073709551616", "%31"]
# Bytes that mean something in a line, or cannot stand in one.
ODD = [b" ", b"%", b",", b"=", b"(", b")", b"[", b"]", b"'", b"#", b"-", b"0", b"\r", b"\t", b"\0", b"\x7f", b"\xff", b"\x80", b"a"]


class Case:
    """Files of the folder `tables` by name, and the lines of each run in it; whether the last line of each is without a newline."""

    def __init__(self, name, files, runs, is_open):
        self.name, self.files, self.runs, self.is_open = name, files, runs, is_open

    def inputs(self):
        """What each run reads."""
        return [b"\n".join(run) + b"\n" * (not self.is_open) for run in self.runs]


def make_end(rng):
    """What may stand at a line's end and belongs to no word."""
    return rng.choice([b" ", b"\r", b"\t", b"\0"])


class Maker:
    """Draws the parts of a script under a schema of its own."""

    def __init__(self, seed):
        self.rng = random.Random(seed)
        one = self.rng.choice
        self.kinds = one([["int"], ["int"], ["text"], ["text", "int"], ["int", "text"], ["int", "int", "text"], ["text", "text", "int", "int"]])
        self.statics = one([[], ["s"], ["s", "t"]])
        self.cols = one([[], ["a"], ["a", "b"], ["a", "b", "c_1"], [f"c{it}" for it in range(32)]])
        names = lambda found: ",".join(found) or "-"
        self.schema = f"ck={','.join(self.kinds)} static={names(self.statics)} cols={names(self.cols)}"
        self.keys = self.rng.sample(KEYS, self.rng.randint(1, 3))
        self.ints, self.texts, self.stamps = INTS, TEXTS, STAMPS
        self.first = f"schema {self.schema}"

    def one(self, found):
        return self.rng.choice(found)

    def narrow(self):
        """From now on few keys, components and timestamps are drawn, so that nearly everything meets."""
        self.keys, self.ints, self.texts = self.keys[:1], ["-1", "2", "10"], ["''", "a", "ab"]
        self.stamps = self.rng.sample(STAMPS, 2)

    def respelled(self, word):
        """The word with some of its plain letters and digits spelled by percent signs."""
        return "".join(f"%{ord(it):02x}" if it.isalnum() and self.rng.random() < 0.1 else it for it in word) if "%" not in word and self.rng.random() < 0.1 else word

    def component(self, kind):
        return self.one(self.ints if kind == "int" else self.texts)

    def ck(self, count=None):
        kinds = self.kinds[:len(self.kinds) if count is None else count]
        return ",".join(self.component(it) for it in kinds)

    def bounds(self):
        """Two bounds; the first is not always below the second."""
        prefix = lambda: self.ck(self.rng.randint(1, len(self.kinds)))
        start = self.one(["-", f"[{prefix()}", f"({prefix()}"])
        end = self.one(["-", f"{prefix()}]", f"{prefix()})"])
        return f"from={start} to={end}"

    def times(self):
        return f"ts={self.one(self.stamps)} dt={self.one(TIMES)}"

    def some(self, names, least):
        """Some of the names, in any order; none where there are none."""
        return self.rng.sample(names, self.rng.randint(min(least, len(names)), min(len(names), 3)))

    def cells(self, names, least=0):
        return "".join(f" {it}={self.respelled(self.one(VALUES))}" for it in self.some(names, least))

    def dead(self, names):
        return "".join(f" {it}" for it in self.some(names, 1))

    def write(self):
        key, ts = self.respelled(self.one(self.keys)), f"ts={self.one(self.stamps)}"
        kind = self.rng.randrange(12)
        if kind < 4:
            return f"insert {key} {self.ck()} {ts}{self.cells(self.cols)}"
        if kind < 6 and self.cols:
            return f"update {key} {self.ck()} {ts}{self.cells(self.cols, 1)}"
        if kind == 6 and self.cols:
            return f"unset {key} {self.ck()} {self.times()}{self.dead(self.cols)}"
        if kind == 7:
            return f"delete {key} {self.ck()} {self.times()}"
        if kind < 10:
            return f"delrange {key} {self.bounds()} {self.times()}"
        if kind == 10 and self.statics:
            return self.one([f"static {key} {ts}{self.cells(self.statics, 1)}", f"unstatic {key} {self.times()}{self.dead(self.statics)}"])
        return f"delpart {key} {self.times()}" if self.rng.random() < 0.3 else f"insert {key} {self.ck()} {ts}"

    def writes(self, most):
        return [self.write() for _ in range(self.rng.randint(1, most))]

    def reads(self):
        """Every partition whole, and a slice of one."""
        found = []
        for number, key in enumerate(self.keys, 50):
            found += [f"open {number} {key}", f"read {number} 1000", f"close {number}"]
        return found + [f"open 49 {self.one(self.keys)} {self.bounds()}", "read 49 1000", "close 49"]

    def reader(self):
        """A line about one of four readers."""
        number = self.rng.randint(1, 4)
        opens = f"open {number} {self.one(self.keys)}"
        return self.one([opens, f"{opens} {self.bounds()}", f"read {number} 1", f"read {number} {self.rng.randint(1, 5)}", f"close {number}"])

    def bad_word(self, word):
        """Another word in the place of this one, which hardly ever belongs there."""
        name, equals, value = word.partition("=")
        if name in ("ts", "dt", "from", "to"):
            bounds = ["[1,1,1,1,1", "(", "]", "1)", "[''a", "[1]", "-)", "[-0", "[,1", "[%31"]
            return f"{name}={self.one(NUMBERS if name[-1] in 'st' else bounds)}"
        if equals:
            return self.one([f"zz={value}", f"s={value}", f"{name}={'x' * 257}", f"{name}={value}%4", f"{name}={value}%zZ", f"{name}=a,b", f"{name}", f"{name}=={value}", f"={value}", f"{name.upper()}={value}", f"{'n' * 33}={value}"])
        return self.one([*NUMBERS, "''", "''a", "a''", "-", "1,1,1,1,1", ",", "1,", "%", "k" * 65, "%6b" * 64, "walk", "Insert", f"{word},1", f"{word}="])

    def spoilt(self, line):
        """A line with something changed: mostly one that is refused."""
        data, words = line.encode(), line.split(" ")
        at, word = self.rng.randrange(len(data) + 1), self.rng.randrange(len(words))
        if self.rng.random() < 0.6:
            return " ".join([*words[:word], self.bad_word(words[word]), *words[word + 1:]]).encode()
        return self.one([
            data[:at] + self.one(ODD) + data[at:],
            data[:at] + data[at + 1:],
            data[:at],
            f"{line} {words[-1]}".encode(),
            " ".join(words[:word] + words[word + 1:]).encode(),
            " ".join(words[:word] + [words[word]] + words[word:]).encode(),
            b" " + data,
            data + make_end(self.rng),
        ])


def writes(make):
    """Writes of every kind that meet at few places, and what is read of them."""
    return {}, [[make.first, *make.writes(60), *make.reads()]]


def ties(make):
    """Writes that meet at one cell, one row or one bound, at two timestamps, read after every few."""
    make.narrow()
    lines = [make.first]
    for _ in range(make.rng.randint(2, 10)):
        lines += [*make.writes(8), *["flush"] * (make.rng.random() < 0.2), *make.reads()]
    return {}, [lines]


def pauses(make):
    """Readers that are opened, read a little, and left while others write and flush."""
    lines = [make.first]
    for _ in range(make.rng.randint(20, 80)):
        lines.append(make.one([make.write, make.reader, make.reader, lambda: "flush" if make.rng.random() < 0.2 else "# pause"])())
    return {}, [lines + make.reads()]


def flushes(make):
    """Writes spread over tables and memory, read before and after each flush."""
    lines = [make.first]
    for _ in range(make.rng.randint(2, 6)):
        lines += [*make.writes(12), *make.reads(), "flush", *make.reads()]
    return {}, [lines]


def cached(make):
    """Partitions in tables, read again and again, while objects are evicted and others are written and flushed."""
    lines = [make.first, *make.writes(40), "flush"]
    for _ in range(make.rng.randint(5, 30)):
        lines += make.one([make.reads, make.reads, lambda: [f"evict {make.rng.randint(1, 9)}"], lambda: [make.write(), "flush"], lambda: make.writes(3), lambda: [make.reader()]])()
    return {}, [lines + make.reads()]


def later(make):
    """Several runs in one folder; what was not flushed is gone, and another schema ends the last run."""
    runs = []
    for _ in range(make.rng.randint(2, 4)):
        runs.append([make.first, *make.writes(20), *make.one([["flush"], ["flush"], []]), *make.writes(3), *make.reads()])
    if make.rng.random() < 0.3:
        runs.append([f"schema ck={make.one(['int', 'text'])} static=- cols=other", "flush"])
    return {}, runs


def refusals(make):
    """Lines with something changed, before and behind the schema line."""
    well = lambda: make.one([make.write, make.write, make.reader, lambda: "flush", lambda: make.first])()
    lines = [make.spoilt(well()) for _ in range(make.rng.randint(0, 5))] + [make.first]
    for _ in range(make.rng.randint(20, 120)):
        lines.append(make.spoilt(well()) if make.rng.random() < 0.7 else well())
    return {}, [lines + make.reads()]


def bounds(make):
    """Range tombstones and slices, of which the bounds are prefixes of each other."""
    make.narrow()
    lines = [make.first]
    for _ in range(make.rng.randint(5, 25)):
        key = make.one(make.keys)
        lines.append(make.one([f"delrange {key} {make.bounds()} {make.times()}", f"insert {key} {make.ck()} ts={make.one(make.stamps)}"]))
    lines += ["flush"] * (make.rng.random() < 0.3)
    for number in range(1, make.rng.randint(5, 20)):
        lines += [f"open {number} {make.one(make.keys)} {make.bounds()}", f"read {number} {make.rng.randint(1, 9)}"]
    return {}, [lines]


def limits(make):
    """The largest of what a line, a value, a key, a name and the readers may be, and one more."""
    size = make.one([65536, 65537])
    lines = [make.first, "#" * size, "insert " + "k" * (size - 7), f"schema ck=int static=- cols={'c' * make.one([32, 33])}"]
    lines += [f"open {it} {make.keys[0]}" for it in range(1, make.one([64, 66]) + 1)]
    lines += [f"insert {'k' * make.one([64, 65])} {make.ck()} ts=1", "read 4294967295 1", "read 4294967296 1", "read 1 4294967295"]
    if "text" in make.kinds:
        lines.append(f"insert p {','.join('1' if it == 'int' else 't' * make.one([64, 65]) for it in make.kinds)} ts=1")
    if make.cols:
        lines.append(f"insert p {make.ck()} ts=1 {make.cols[-1]}={'v' * make.one([256, 257])}")
        lines.append(f"insert p {make.ck()} ts=1 " + " ".join(f"{it}={'v' * 256}" for it in make.cols))
    return {}, [lines + ["flush", *make.reads()], [make.first, *make.reads()]]


def blocks(make):
    """A partition of many blocks, under range tombstones that cross them."""
    lines, key = [make.first], make.keys[0]
    for number in range(make.rng.randint(100, 400)):
        ck = ",".join(str(number) if it == "int" else f"t{number:03d}" for it in make.kinds)
        lines.append(f"insert {key} {ck} ts={number % 7}" + make.cells(make.cols))
        if make.rng.random() < 0.05:
            lines.append(f"delrange {key} from=[{ck} to=- ts={number % 5} dt=1")
    return {}, [[*lines, "flush", *make.reads()], [make.first, *make.reads(), *make.writes(3), "flush", *make.reads()]]


def tables(make):
    """Table files that are made, some of them damaged, which a run opens and reads."""
    schema, files, are_whole = tablefiles.Schema(make.schema), {}, make.rng.random() < 0.5
    for number in make.rng.sample([1, 2, 3, 7, 10, 4294967294, 4294967295], make.rng.randint(1, 3)):
        whole = lambda: tablefiles.spell(schema.text, tablefiles.draw_partitions(make.rng, schema))
        files[f"{number}.tbl"] = whole() if are_whole else tablefiles.draw_file(make.rng, schema)
    files.update({make.one(["notes", "01.tbl", "0.tbl", "9.tmp", "x.tbl"]): b"no table"} if make.rng.random() < 0.2 else {})
    make.keys = [tablefiles.spelled(it) for it in tablefiles.KEYS[:3]]
    return files, [[make.first, *make.reads(), *make.writes(5), "flush", *make.reads()]]


PROFILES = {it.__name__: it for it in (writes, ties, pauses, flushes, cached, later, refusals, bounds, limits, blocks, tables)}


def case(profile, seed):
    """The case that a profile and a seed name."""
    make = Maker(f"{profile} {seed}")
    files, runs = PROFILES[profile](make)
    as_bytes = lambda line: line if isinstance(line, bytes) else line.encode()
    return Case(f"{profile} {seed}", files, [[as_bytes(line) for line in run] for run in runs], make.rng.random() < 0.2)
