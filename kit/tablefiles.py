"""Table files that are made, byte by byte, whole and damaged.

A partition is (key, tombstone or None, the static row's bytes, fragments), a fragment (its bytes behind the first one's position in order, its
sort, its position's bytes, and for a change its tombstone). `spell` writes a directory that is right for what it is given, so what is wrong with a
partition stands deep in the file and not at its end.
"""
import struct

KEYS = [b"p", b"q", b"k x", b"\0", b"A" * 64]
STAMPS = [-2 ** 63, -1, 0, 1, 2, 3, 2 ** 63 - 1]
TIMES = [0, 1, 7, 2 ** 32 - 1]
VALUES = [b"", b"5", b"12", b"\0", b"\xff", b"x" * 256]
INTS = [-2 ** 63, -3, 0, 1, 2, 300, 2 ** 63 - 1]
TEXTS = [b"", b"a", b"ab", b"b", b"\xff", b"Z" * 64]
BEFORE, AT, AFTER = 0, 1, 2


class Schema:
    """A schema's text, its kinds, and how many columns of both sorts it has."""

    def __init__(self, text):
        kinds, statics, cols = (it.split("=")[1].split(",") for it in text.split(" "))
        self.text, self.kinds = text.encode(), kinds
        self.statics, self.cols = (0 if it == ["-"] else len(it) for it in (statics, cols))


def spelled(data):
    """Bytes as a line spells them."""
    return "".join(chr(it) if 48 <= it < 58 or 65 <= it < 91 or 97 <= it < 123 else f"%{it:02X}" for it in data)


def stamp(ts):
    return struct.pack("<q", ts)


def tomb(found):
    return b"\0" if found is None else b"\1" + struct.pack("<qI", *found)


def key_code(key):
    return bytes([len(key)]) + b"".join(b"\0" + stamp(it) if isinstance(it, int) else b"\1" + bytes([len(it)]) + it for it in key)


def row_code(marker, deletion, cells):
    """A row; a cell is (column, timestamp, value) or (column, timestamp, deletion time)."""
    found = (b"\0" if marker is None else b"\1" + stamp(marker)) + tomb(deletion) + bytes([len(cells)])
    for column, ts, what in cells:
        found += bytes([column]) + (b"\0" + stamp(ts) + struct.pack("<H", len(what)) + what if isinstance(what, bytes) else b"\1" + struct.pack("<qI", ts, what))
    return found


def row_item(key, marker, deletion, cells):
    return b"\2" + key_code(key) + row_code(marker, deletion, cells), bytes([AT]) + key_code(key), False


def change_item(weight, prefix, found):
    position = bytes([weight]) + key_code(prefix)
    return b"\3" + position + tomb(found), position, found


def place(weight, key):
    """A position as a value in order."""
    return [(1, it) for it in key] + [{BEFORE: (0, 0), AT: (0, 1), AFTER: (2,)}[weight]]


def spell(schema_text, partitions):
    """The file of the partitions, with the directory that they determine."""
    data = b"RCT1" + struct.pack("<H", len(schema_text)) + schema_text
    directory = b""
    for key, deletion, static, fragments in partitions:
        part, blocks, force = len(data), [], None
        data += b"\1" + bytes([len(key) % 256]) + key + tomb(deletion) + static
        for item, position, change in fragments:
            if not blocks or blocks[-1][1] + len(item) > 4096:
                blocks.append([len(data), 0, force, position])
            blocks[-1][1] += len(item)
            force = force if change is False else change
            data += item
        data += b"\4"
        directory += b"\6" + bytes([len(key) % 256]) + key + struct.pack("<QI", part, len(blocks))
        for offset, size, before, position in blocks:
            directory += b"\7" + struct.pack("<QI", offset, size) + tomb(before) + position
    data += b"\5"
    return data + directory + struct.pack("<QI", len(data), len(partitions)) + b"RCTE"


def draw_cells(rng, count):
    columns = sorted(rng.sample(range(count), rng.randint(0, min(count, 4))))
    return [(it, rng.choice(STAMPS), rng.choice(VALUES) if rng.random() < 0.7 else rng.choice(TIMES)) for it in columns]


def draw_tomb(rng):
    return (rng.choice(STAMPS), rng.choice(TIMES))


def draw_key(rng, kinds):
    return tuple(rng.choice(INTS if it == "int" else TEXTS) for it in kinds)


def draw_fragments(rng, schema):
    """Rows and changes of one partition that fit, in order, each tombstone ended."""
    places = {}
    for _ in range(rng.choice([0, 1, 3, 8, 40])):
        weight = rng.choice([AT, AT, AT, BEFORE, AFTER])
        key = draw_key(rng, schema.kinds if weight == AT else schema.kinds[:rng.randint(0, len(schema.kinds))])
        places[tuple(place(weight, key))] = weight, key
    places.pop(tuple(place(AFTER, ())), None)
    found, force = [], None
    for weight, key in (places[it] for it in sorted(places)):
        new = rng.choice([None, draw_tomb(rng), draw_tomb(rng)])
        if weight == AT:
            cells = draw_cells(rng, schema.cols)
            marker = rng.choice(STAMPS) if rng.random() < 0.6 or not cells else None
            found.append(row_item(key, marker, draw_tomb(rng) if rng.random() < 0.2 else None, cells))
        elif new != force:
            found.append(change_item(weight, key, new))
            force = new
    return found + [change_item(AFTER, (), None)] * (force is not None)


def draw_partitions(rng, schema):
    """Partitions that fit, by ascending key; none at times."""
    keys = sorted(rng.sample(KEYS, rng.choice([0, 1, 1, 2, 3])))
    static = lambda: row_code(None, None, draw_cells(rng, schema.statics))
    return [(it, draw_tomb(rng) if rng.random() < 0.2 else None, static(), draw_fragments(rng, schema)) for it in keys]


def with_fragments(rng, partitions, change):
    """The partitions, of one of which the list of fragments is changed."""
    if not partitions:
        return [(b"p", None, row_code(None, None, []), change([]))]
    at = rng.randrange(len(partitions))
    key, deletion, static, fragments = partitions[at]
    return partitions[:at] + [(key, deletion, static, change(list(fragments)))] + partitions[at + 1:]


def odd_items(rng, schema):
    """A fragment that does not fit, or seldom does."""
    kinds = schema.kinds
    key = draw_key(rng, kinds)
    other = draw_key(rng, ["text" if it == "int" else "int" for it in kinds])
    return rng.choice([
        row_item(key, None, None, []),
        row_item(other, 1, None, []),
        row_item(key[:-1], 1, None, []),
        row_item(key + (1,), 1, None, []),
        row_item(key, 1, None, [(schema.cols, 1, b"x")]),
        row_item(key, 1, None, [(1, 1, b"x"), (0, 1, b"x")]),
        row_item(key, 1, None, [(0, 1, b"x"), (0, 1, b"x")]),
        row_item(key, 1, None, [(0, 1, b"x" * 257)]),
        row_item(key, 1, None, [(it, 1, 1) for it in range(32)]),
        row_item(key, 1, None, [(it, 1, 1) for it in range(33)]),
        change_item(AT, key, (1, 1)),
        change_item(BEFORE, other, (1, 1)),
        change_item(AFTER, key + (1,), (1, 1)),
        change_item(AFTER, (1, 1, 1, 1, 1), (1, 1)),
        change_item(3, (), (1, 1)),
        change_item(BEFORE, (), None),
        change_item(AFTER, (b"t" * 65,), (1, 1)),
        (b"\2" + bytes([5]), b"", False),
        (b"\3" + bytes([0, 0, 2]), b"", False),
        (b"\4", b"", False),
        (b"\5", b"", False),
        (b"\1", b"", False),
    ])


def damaged_partitions(rng, schema, partitions):
    """Partitions of which something does not fit."""
    def put(found):
        found.insert(rng.randint(0, len(found)), odd_items(rng, schema))
        return found

    def twice(found):
        return found + found[-1:]

    def turned(found):
        rng.shuffle(found)
        return found

    def dropped(found):
        if found:
            found.pop(rng.randrange(len(found)))
        return found

    static = row_code(*rng.choice([(1, None, []), (None, (1, 1), []), (None, None, [(schema.statics, 1, b"x")]), (None, None, [(0, 1, b"v" * 257)])]))
    return rng.choice([
        lambda: with_fragments(rng, partitions, put),
        lambda: with_fragments(rng, partitions, put),
        lambda: with_fragments(rng, partitions, twice),
        lambda: with_fragments(rng, partitions, turned),
        lambda: with_fragments(rng, partitions, dropped),
        lambda: partitions + partitions[-1:],
        lambda: partitions[::-1],
        lambda: [(b"", None, row_code(None, None, []), [])],
        lambda: [(b"k" * 65, None, row_code(None, None, []), [])],
        lambda: [(b"k", None, static, [])],
    ])()


def damaged_bytes(rng, data):
    """Bytes of which some are cut off, put in, left out or changed."""
    at = rng.randrange(len(data) + 1)
    far = rng.choice([at, max(0, len(data) - 1 - rng.randrange(40))])
    byte = bytes([rng.choice([0, 1, 2, 3, 4, 5, 6, 7, 255, rng.randrange(256)])])
    return rng.choice([
        data[:at],
        data[:far] + byte + data[far + 1:],
        data[:at] + byte + data[at + 1:],
        data[:at] + byte + data[at:],
        data[:at] + data[at + 1:],
        data + byte * rng.randint(1, 20),
        b"",
    ])


def other_heads(rng, schema):
    """Texts that are another schema, or none."""
    text = schema.text
    return rng.choice([text + b",zz", b"ck=int static=- cols=zz", text.replace(b"ck=", b"ck=text,"), text + b" ", text.replace(b"=", b" "), text[:-1], b"", b"ck=int static=a cols=a", b"ck=int,int,int,int,int static=- cols=-", b"ck=int static=- cols=" + b"n" * 33, b"ck=int static=- cols=A"])


def draw_file(rng, schema):
    """A table's bytes: whole in one case of three, else damaged somewhere."""
    partitions = draw_partitions(rng, schema)
    kind = rng.randrange(6)
    if kind < 2:
        return spell(schema.text, partitions)
    if kind == 2:
        return spell(schema.text, damaged_partitions(rng, schema, partitions))
    if kind == 3 and rng.random() < 0.4:
        return spell(other_heads(rng, schema), partitions)
    return damaged_bytes(rng, spell(schema.text, partitions))
