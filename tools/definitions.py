"""The definitions of the repository and what each names, read from the sources. Used by tools/meaning.

It is no parser of the language: a name is found through the `use` lines of its file, the definitions of the file, and the types, traits and
re-exports of the sources. What a clause binds (parameters, patterns, fields) is told from names by the rules of scope.
"""
import os
import re

TOP = os.path.dirname(os.path.dirname(os.path.realpath(__file__)))

KEYWORDS = {
    "abbrev", "unfoldable", "pub", "data", "record", "module", "where", "use", "as", "let", "in", "elim", "if", "then", "else", "Type", "Self",
    "result", "self", "mut", "fn", "struct", "enum", "trait", "impl", "for", "ensures", "requires", "ghost", "const", "type", "crate", "super", "dyn",
    "true", "false", "_",
}
PLAIN = {  # Rust's own types, and std's that need no `use` line
    "u8", "u16", "u32", "u64", "usize", "i8", "i16", "i32", "i64", "bool", "char", "str", "String", "Vec", "Option", "Some", "None", "Result", "Ok",
    "Err", "Box", "Copy", "Clone", "Sized", "Drop", "Model",
}
WORDS = {"Unit", "tt"}  # the language's own
NAME = r"[A-Za-z_][\w']*(?:-[\w']+)*"
TOKEN = re.compile(r'"(?:[^"\\]|\\.)*"|//[^\n]*|--[^\n]*|' + NAME + r"|λ|\d[\d_]*|⟦<|>⟧|=>|->|::|[^\s\w]|\s+")


class Unit:
    """A definition: its name, its file and lines, its own comment, its words, and the definitions that these name."""

    def __init__(self, name, path, crate, module):
        self.name, self.path, self.crate, self.module = name, path, crate, module
        self.comment, self.words, self.first, self.last = [], [], 0, 0
        self.block = None  # the block of parameters in which it stands
        self.needs = set()
        self.read = None  # gives the names in its words, when it is reached

    def lines(self):
        return len([it for it in self.words if it.strip() and not it.strip().startswith(("--", "//"))])


def tokens(text):
    """The words of a text with no comments and no strings, each with whether a space stands before and behind it."""
    found, space = [], True
    for it in TOKEN.findall(text):
        if it.isspace():
            space = True
        elif it.startswith(("--", "//")):
            space = True
        else:
            found.append((it, space))
            space = False
    return found


# --- the files of definitions

USE = re.compile(r"^\s*(?:pub )?(?:ghost )?use (Rattle\.[\w.]+?|\w+(?:\.\w+)*?)(?:\.\{([^}]*)\}|( as (\w+)))?;?\s*$")
OF = re.compile(rf"^(\s*)(?:pub )?(?:abbrev|unfoldable) (?:pub )?({NAME})\s*:")
TYPE = re.compile(rf"^(\s*)(?:pub )?(data|record) ({NAME})")
FACT = re.compile(rf"^(\s*)(?:pub )?({NAME})\s*:")
BLOCK = re.compile(r"^(\s*)module _ ")


class File:
    """A file of definitions or of the program: its units by name, and what its `use` lines bring in."""

    def __init__(self, crate, path, module):
        self.crate, self.path, self.module = crate, path, module
        with open(os.path.join(TOP, path), encoding="utf-8") as it:
            self.text = it.read().split("\n")
        self.units, self.cases, self.uses = {}, {}, {}
        self.about = []


def read_uses(file, text):
    """Names that `use` lines bring in: as (module, name), or (module, None) for a module under a name of its own."""
    uses = {}
    for line in re.findall(r"^\s*(?:pub )?(?:ghost )?use [^{}\n]*(?:\{[^}]*\})?[^\n]*", text, re.M):
        found = USE.match(re.sub(r"\s+", " ", line.rstrip()))
        if not found:
            continue
        module, names, _, alias = found.groups()
        if names is not None:
            for one in names.split(","):
                one = one.strip()
                if one:
                    name, _, other = one.partition(" as ")
                    uses[(other or name).strip()] = (module, name.strip())
        else:
            uses[alias or module.rsplit(".", 1)[-1]] = (module, None)
    return uses


def own_comment(text, at, mark):
    """The comment right above a line, and the line at which it begins."""
    first = at
    while first > 0 and text[first - 1].strip().startswith(mark):
        first -= 1
    said = []
    for line in text[first:at]:
        line = line.strip()[len(mark):].strip()
        if not line.startswith("----"):
            said.append(line)
    return said, first


def read_definitions(file):
    """Cuts a file of definitions into units."""
    text = file.text
    file.uses = read_uses(file, "\n".join(text))
    at = 0
    while at < len(text) and text[at].startswith("--"):
        if not re.match(r"--\s{3,}", text[at]):
            file.about.append(text[at][2:].strip())
        at += 1
    blocks = []
    while at < len(text):
        line = text[at]
        if not line.strip():
            at += 1
            continue
        depth = len(line) - len(line.lstrip())
        while blocks and depth <= blocks[-1][0]:
            blocks.pop()
        if BLOCK.match(line):
            last = at
            while "where" not in text[last].split():
                last += 1
            comment, _ = own_comment(text, at, "--")
            block = Unit(None, file.path, file.crate, file.module)
            block.comment, block.words, block.first, block.last = comment, text[at:last + 1], at + 1, last + 1
            block.block = blocks[-1][1] if blocks else None
            blocks.append((depth, block))
            at = last + 1
            continue
        of, kind, fact = OF.match(line), TYPE.match(line), FACT.match(line)
        if not (of or kind or fact) or line.lstrip().startswith("--"):
            at += 1
            continue
        name = of.group(2) if of else kind.group(3) if kind else fact.group(2)
        unit = Unit(name, file.path, file.crate, file.module)
        unit.comment, _ = own_comment(text, at, "--")
        unit.block = blocks[-1][1] if blocks else None
        last = at
        while last + 1 < len(text):
            below = text[last + 1]
            if not below.strip():
                break
            if indent(below) <= depth and not below.strip().startswith(("--", "}", ")")):
                starts = re.match(rf"\s*({NAME})", below)
                if kind or not starts or starts.group(1) != name or FACT.match(below) or OF.match(below):
                    break
            last += 1
        while text[last].strip().startswith("--"):
            last -= 1
        unit.words, unit.first, unit.last = text[at:last + 1], at + 1, last + 1
        unit.kind = "fact" if fact and not of else kind.group(2) if kind else "of"
        file.units[name] = unit
        if kind and kind.group(2) == "data":
            for word in unit.words[1:]:
                case = re.match(rf"^\s+(?:pub )?({NAME}) :", word)
                if case:
                    file.cases[case.group(1)] = unit
        unit.read = lambda unit=unit: read_names(file, unit)
        at = last + 1


# --- scope: which words of a text are names

OPEN, CLOSE = {"(": ")", "{": "}", "[": "]"}, {")", "}", "]"}


def free_names(toks, bound, is_case):
    """The names that stand free in a text, in which each of `bound` is a variable."""
    found = []
    frames, at = [set(bound)], 0

    def is_bound(name):
        return any(name in it for it in frames)

    while at < len(toks):
        it, space = toks[at]
        if it in OPEN:
            # (x y : T), or {x : T}: these are bound up to the end of the group around it
            ahead = at + 1
            names = []
            while ahead < len(toks) and re.fullmatch(NAME, toks[ahead][0]):
                names.append(toks[ahead][0])
                ahead += 1
            if names and ahead < len(toks) and toks[ahead][0] == ":" and it != "[":
                depth, end = 1, ahead
                while depth and end + 1 < len(toks):
                    end += 1
                    depth += (toks[end][0] in OPEN) - (toks[end][0] in CLOSE)
                behind = toks[end + 1][0] if end + 1 < len(toks) else ""
                if behind in ("→", "×", "(", "{", ":", "where", ".") or it == "{":
                    found += free_names(toks[ahead + 1:end], set().union(*frames), is_case)
                    frames[-1].update(names)
                    at = end + 1
                    continue
            frames.append(set())
        elif it in CLOSE:
            if len(frames) > 1:
                frames.pop()
        elif it in (",", ";") and len(frames) > 1:
            frames[-1] = set()
        elif it == "λ":
            at += 1
            while at < len(toks) and toks[at][0] != ".":
                if re.fullmatch(NAME, toks[at][0]) and not is_case(toks[at][0]):
                    frames[-1].add(toks[at][0])
                at += 1
        elif re.fullmatch(NAME, it) and it not in KEYWORDS:
            before = toks[at - 1][0] if at else ""
            behind = toks[at + 1][0] if at + 1 < len(toks) else ""
            if before == "." and not space:
                pass  # a field
            elif behind == "=":  # a field that is given, or a `let`
                if before == "let":
                    frames[-1].add(it)
            elif not is_bound(it):
                path = [it]
                ahead = at
                while ahead + 2 < len(toks) and toks[ahead + 1][0] == "." and not toks[ahead + 1][1] and not toks[ahead + 2][1]:
                    path.append(toks[ahead + 2][0])
                    ahead += 2
                found.append(path)
        at += 1
    return found


def read_names(file, unit):
    """The names in the words of a definition."""
    def is_case(name):
        return resolves_to_case(file, name)

    bound = set()
    block, heads = unit.block, []
    while block:
        heads.append(block)
        block = block.block
    found = []
    for head in reversed(heads):
        toks = tokens("\n".join(head.words))[2:]
        where = next((n for n, it in enumerate(toks) if it[0] == "where"), len(toks))
        found += collect_binders(toks[:where], bound, is_case)
    if unit.kind in ("data", "record"):
        toks = tokens("\n".join(unit.words))
        skip = next(n for n, it in enumerate(toks) if it[0] == unit.name)
        where = next((n for n, it in enumerate(toks) if it[0] == "where"), len(toks))
        inside = set(bound)
        found += collect_binders(toks[skip + 1:where], inside, is_case)
        lines, field = [], []
        for line in unit.words[1:]:
            if re.match(rf"^\s+(?:pub )?{NAME} :", line) and indent(line) == indent(unit.words[0]) + 2:
                if field:
                    lines.append("\n".join(field))
                field = [line]
            else:
                field.append(line)
        if field:
            lines.append("\n".join(field))
        for one in lines:
            got = re.match(rf"^\s+(?:pub )?({NAME}) :", one)
            if not got:
                continue
            found += free_names(tokens(one[got.end():]), inside, is_case)
            if unit.kind == "record":
                inside.add(got.group(1))
        return found
    # the type, and then each clause
    depth = indent(unit.words[0])
    parts, part = [], []
    for n, line in enumerate(unit.words):
        if n and indent(line) == depth and re.match(rf"\s*{re.escape(unit.name)}(?![\w'-])", line):
            parts.append("\n".join(part))
            part = []
        part.append(line)
    parts.append("\n".join(part))
    head = parts[0]
    found += free_names(tokens(head[head.index(":") + 1:]), bound, is_case)
    for one in parts[1:]:
        toks = tokens(one)[1:]
        nest = 0
        cut = len(toks)
        for n, (it, _) in enumerate(toks):
            nest += (it in OPEN) - (it in CLOSE)
            if it == "=" and not nest:
                cut = n
                break
        inside = set(bound)
        n = 0
        while n < cut:
            it = toks[n][0]
            if re.fullmatch(NAME, it) and it not in KEYWORDS and not (n and toks[n - 1][0] == "." and not toks[n][1]):
                behind = toks[n + 1][0] if n + 1 < cut else ""
                if is_case(it):
                    found.append([it])
                elif behind == "." and not toks[n + 1][1]:
                    found.append([it, toks[n + 2][0]])
                elif behind == "=":
                    pass
                else:
                    inside.add(it)
            n += 1
        found += free_names(toks[cut + 1:], inside, is_case)
    return [it for it in found if it[0] != unit.name]


def collect_binders(toks, bound, is_case):
    """Adds the variables of a row of (x : T) to `bound`, and gives the names in their types and behind them."""
    found, at = [], 0
    while at < len(toks):
        it = toks[at][0]
        if it in ("(", "{"):
            depth, end, colon = 1, at, None
            while depth and end + 1 < len(toks):
                end += 1
                if toks[end][0] == ":" and depth == 1 and colon is None:
                    colon = end
                depth += (toks[end][0] in OPEN) - (toks[end][0] in CLOSE)
            if colon is not None:
                found += free_names(toks[colon + 1:end], bound, is_case)
                bound.update(t for t, _ in toks[at + 1:colon])
                at = end + 1
                continue
        if it == ":":
            found += free_names(toks[at + 1:], bound, is_case)
            break
        at += 1
    return found


def indent(line):
    return len(line) - len(line.lstrip())


# --- the files of the program: types, traits, and the function whose clauses are the headline

ITEM = re.compile(r"^pub(?:\(crate\))? (struct|enum|trait|type) (\w+)|^(struct|enum|trait|type) (\w+)")
RUST_USE = re.compile(r"^\s*(?:pub(?:\(crate\))? )?use ([^;]+);", re.M)


def rust_uses(text):
    """Names that Rust's `use` lines bring in, as paths."""
    uses = {}

    def spread(prefix, rest):
        rest = rest.strip()
        brace = rest.find("{")
        if brace < 0:
            path, _, other = rest.partition(" as ")
            path = [it for it in (prefix + path.strip().split("::")) if it]
            uses[other.strip() or path[-1]] = path
            return
        head = [it for it in rest[:brace].split("::") if it]
        depth, part = 0, ""
        for it in rest[brace + 1:rest.rindex("}")]:
            depth += (it == "{") - (it == "}")
            if it == "," and not depth:
                spread(prefix + head, part)
                part = ""
            else:
                part += it
        if part.strip():
            spread(prefix + head, part)

    for found in RUST_USE.finditer("\n".join(line for line in text if "ghost use" not in line)):
        spread([], re.sub(r"\s+", " ", found.group(1)))
    return uses


def braces(text, at):
    """The line that closes what a line opens."""
    depth, seen = 0, False
    for last in range(at, len(text)):
        line = re.sub(r'"(?:[^"\\]|\\.)*"|//.*', "", text[last])
        depth += line.count("{") + line.count("(") - line.count("}") - line.count(")")
        seen = seen or "{" in line
        if not depth and (seen or line.rstrip().endswith(";")):
            return last
    return len(text) - 1


def read_program(file):
    """Cuts a file of the program into its types and traits, each with its model, if it has one."""
    text = file.text
    file.rust = rust_uses(text)
    ghosts = [it for it in text if "ghost use" in it and not it[0].isspace()]
    file.uses = read_uses(file, "\n".join(ghosts))
    at = 0
    while at < len(text) and text[at].startswith("//"):
        if text[at].startswith("//!") or not text[at].startswith("///"):
            file.about.append(text[at].lstrip("/!").strip())
        at += 1
    models = {}
    for at, line in enumerate(text):
        found = re.match(r"^impl(?:<[^>]*>+)? Model for (\w+)", line)
        if found:
            models[found.group(1)] = (at, braces(text, at))
    for at, line in enumerate(text):
        found = ITEM.match(line)
        if not found:
            continue
        kind, name = found.group(1) or found.group(3), found.group(2) or found.group(4)
        unit = Unit(name, file.path, file.crate, file.module)
        unit.kind = kind
        above = at
        while above > 0 and text[above - 1].startswith(("#[", "//")):
            above -= 1
        unit.comment = [it[3:].strip() for it in text[above:at] if it.startswith("///")]
        last = braces(text, at)
        unit.first, unit.last = at + 1, last + 1
        if kind == "trait":
            unit.words = [line] + ghost_members(text[at + 1:last]) + [text[last]]
        elif name in models:
            first, end = models[name]
            unit.words = [text[first]] + [it for it in model_members(text[first + 1:end])] + [text[end]]
            unit.first, unit.last = first + 1, end + 1
        else:
            unit.words = [it for it in text[at:last + 1] if not it.strip().startswith("#[")]
        inner = models.get(name)
        extra = read_uses(file, "\n".join(text[inner[0]:inner[1]])) if inner else read_uses(file, "\n".join(text[at:last]))
        unit.read = lambda unit=unit, extra=extra: type_names(file, unit, extra)
        file.units[name] = unit


def ghost_members(text):
    """The ghost members of a trait, each with its comment."""
    found = []
    for at, line in enumerate(text):
        if re.match(r"^    ghost (?!use)", line):
            above = at
            while above > 0 and text[above - 1].strip().startswith("//"):
                above -= 1
            end = at
            while not text[end].rstrip().endswith(";"):
                end += 1
            found += text[above:end + 1]
    return found


def model_members(text):
    """What contracts see of a type, and what holds of each of its values."""
    found = []
    for at, line in enumerate(text):
        if re.match(r"^    ghost (Value|invariant)\b", line):
            end = at
            while not text[end].rstrip().endswith(";"):
                end += 1
            found += text[at:end + 1]
    return found


def type_names(file, unit, extra):
    """The names in a type's or a trait's words."""
    scope = dict(file.uses)
    scope.update(extra)
    found = []
    words = "\n".join(re.sub(r"//.*", "", it) for it in unit.words)
    ghost = re.findall(r"ghost (\w+)\s*[:=] \{(.*?)\};", words, re.S)
    if ghost:
        for name, body in ghost:
            found += [(it, scope) for it in free_names(tokens(body), set(), lambda it: False)]
        members = {it[0] for it in ghost}
        return [it for it in found if it[0][0] not in members]
    generics = re.match(r"^(?:pub )?\w+ \w+<([^>]*)>", unit.words[0])
    bound = {it.split(":")[0].strip() for it in generics.group(1).split(",")} if generics else set()
    body = words[words.index(unit.name) + len(unit.name):]
    if unit.kind == "enum":
        body = re.sub(r"(?m)^    \w+", "", body)
    for path in re.findall(r"(?<![\w:.])(?:\w+::)*[A-Z]\w*", body):
        last = path.split("::")
        if last[-1] not in bound:
            found.append((last, scope))
    return found


def headline(file, name):
    """The function whose clauses are the headline, as a unit."""
    text = file.text
    at = next(n for n, it in enumerate(text) if re.match(rf"^pub fn {name}\b", it))
    above = at
    while text[above - 1].startswith(("#[", "//")):
        above -= 1
    last = at
    while not text[last].startswith("{"):
        last += 1
    unit = Unit(name, file.path, file.crate, file.module)
    unit.kind = "fn"
    unit.comment = [it[3:].strip() for it in text[above:at] if it.startswith("///")]
    unit.words, unit.first, unit.last = text[at:last], at + 1, last
    words = "\n".join(re.sub(r"^\s*//.*", "", it) for it in unit.words)
    generics = dict(re.findall(r"(\w+): (\w+)", re.search(r"<(.*?)>\(", words, re.S).group(1)))
    bound = set(re.findall(r"(\w+):", words[words.index("("):words.index("->")])) | {"result"}
    found = [([it], file.uses) for it in generics.values()]
    found += [([it], file.uses) for it in re.findall(r"\b[A-Z]\w+", words[words.index("("):words.index("ensures")])]
    for body in re.findall(r"ensures(?: \w+)? \{(.*?) \}\n", words + "\n", re.S):
        for path in free_names(tokens(body), bound, lambda it: False):
            if path[0] in generics:
                path = [generics[path[0]]]
            found.append((path, file.uses))
    unit.read = lambda: found
    return unit


# --- the whole tree

class Tree:
    def __init__(self):
        self.order, self.files, self.std = [], {}, {}
        deps = {}
        for line in open(os.path.join(TOP, "crates.txt"), encoding="utf-8"):
            line = line.partition("#")[0].strip()
            if line:
                name, _, below = line.partition(":")
                deps[name.split()[0]] = below.split()
        placed = set()

        def place(name):
            if name in placed or name not in deps:
                return
            placed.add(name)
            for it in deps[name]:
                place(it)
            self.order.append(name)

        for name in deps:
            place(name)
        for crate in self.order:
            folder = f"crates/{crate}"
            for part, ending in (("specs", ".antt"), ("src", ".rt")):
                for root, _, names in os.walk(os.path.join(TOP, folder, part)):
                    for name in sorted(names):
                        if name.endswith(ending):
                            path = os.path.relpath(os.path.join(root, name), TOP)
                            inner = os.path.relpath(path, f"{folder}/{part}")[:-len(ending)].replace(os.sep, ".")
                            file = File(crate, path, (crate, part, inner))
                            self.files[file.module] = file
                            (read_definitions if part == "specs" else read_program)(file)

    def module(self, name):
        """The file of a module's name, and for a type of the program the type."""
        parts = name.split(".")
        if parts[0] != "Rattle" or parts[1] not in self.order:
            return None, None
        crate, rest = parts[1], parts[3:]
        if rest and rest[0] == "declared":
            rest = [it for it in rest[1:] if it != "TheVariants"]
            for cut in range(len(rest), 0, -1):
                file = self.files.get((crate, "src", ".".join(rest[:cut])))
                if file:
                    return file, rest[cut] if cut < len(rest) else None
            return None, None
        lib = self.files.get((crate, "specs", "Lib"))
        if rest and lib and rest[0] in lib.uses:
            # a module of a lower crate that this one passes on
            return self.module(".".join([lib.uses[rest[0]][0], *rest[1:]]))
        return self.files.get((crate, "specs", ".".join(rest))), None

    def named(self, module, name, seen=()):
        """The unit that a module gives by a name: a unit, or std's word as text."""
        if not module.startswith("Rattle.") or module.split(".")[1] not in self.order:
            return f"{module}.{name}"
        if (module, name) in seen:
            return None
        file, of = self.module(module)
        if not file:
            return None
        if of:
            return file.units.get(of)
        if name in file.units:
            return file.units[name]
        if name in file.cases:
            return file.cases[name]
        if name in file.uses:
            there, other = file.uses[name]
            return self.named(there, other, seen + ((module, name),)) if other else None
        return None

    def rust(self, file, path):
        """The unit of a path in a file of the program."""
        path = list(path)
        if path[0] in file.rust and not (len(path) == 1 and path[0] in file.units):
            path = file.rust[path[0]] + path[1:]
        if len(path) == 1:
            return file.units.get(path[0]) or ("std" if path[0] in PLAIN else None)
        crate, rest = file.crate, path
        if path[0] in self.order:
            crate, rest = path[0], path[1:]
            root = self.files.get((crate, "src", "lib"))
            exported = root.rust.get(rest[0]) if root and len(rest) == 1 else None
            return self.rust(root, exported) if exported else None
        if path[0] in ("crate", "self", "super"):
            rest = path[1:]
        elif (crate, "src", path[0]) not in self.files and path[0] not in file.units:
            return "std"
        if len(rest) > 1:
            there = self.files.get((crate, "src", ".".join(rest[:-1])))
            if there:
                return self.rust(there, rest[-1:])
        there = self.files.get((crate, "src", "lib"))
        if there and rest[0] in there.rust and there is not file:
            return self.rust(there, there.rust[rest[0]])
        if rest[0] in file.units:
            return file.units[rest[0]]
        return None

    def found(self, file, path, scope):
        """The unit that a name stands for in a file."""
        name = path[0]
        if name in WORDS:
            return "." + name
        if name in scope:
            module, other = scope[name]
            if other is None:
                if len(path) < 2:
                    return None
                if not module.startswith("Rattle.") or module.split(".")[1] not in self.order:
                    return f"{module}.{path[1]}"
                file_of, of = self.module(module)
                if of:
                    return file_of.units.get(of)
                return self.named(module, path[1])
            return self.named(module, other)
        if file.module[1] == "src":
            return self.rust(file, path[:1])
        if name in file.units:
            return file.units[name]
        return file.cases.get(name)


tree = Tree()


def resolves_to_case(file, name):
    """Whether a name is a case of a type: no variable may have it."""
    if name in file.cases:
        return True
    if name not in file.uses:
        return False
    module, other = file.uses[name]
    if other is None:
        return False
    if "TheVariants" in module or module.startswith("Rattle.std"):
        return other[:1].isupper() or other in ("zero", "suc")
    there, of = tree.module(module)
    return bool(there and not of and other in there.cases)
