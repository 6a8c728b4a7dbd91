"""What the sources of some crates declare: types, traits, constants, imports, and functions with the tokens of their bodies; and which
of these a name stands for."""

import re
from collections import defaultdict

TOKEN = re.compile(r"'\w+\b(?!')|'(?:\\.|[^'\\])'|\w+|::|->|=>|\.\.=?|[^\s\w]")
HEAD = re.compile(r'(?:pub(?:\([^)]*\))? )?(?:const )?(?:unsafe )?(?:extern (?:"C" )?)?fn (\w+)')
OPEN, CLOSED = "([{<", ")]}>"


def tokens(text):
    return TOKEN.findall(re.sub(r'b?"(?:\\.|[^"\\])*"', " str_literal ", text))


def parsed(words, at=0):
    """A type that begins at a token, as a pair of its name and the types in it, and the place behind it."""
    while at < len(words) and (words[at] in ("&", "mut", "dyn") or words[at].startswith("'")):
        at += 1
    if at >= len(words):
        return ("", ()), at
    if words[at] in "([":
        kind, inner, at = {"(": "()", "[": "[]"}[words[at]], [], at + 1
        while at < len(words) and words[at] not in ")]":
            if words[at] == ";":
                while at < len(words) and words[at] != "]":
                    at += 1
                break
            one, at = parsed(words, at)
            inner.append(one)
            at += at < len(words) and words[at] == ","
        return (kind, tuple(inner)), at + 1
    at += words[at] == "impl"
    name = words[at] if at < len(words) else ""
    at += 1
    while at + 1 < len(words) and words[at] == "::" and words[at + 1] != "<":
        name, at = words[at + 1], at + 2
    inner = []
    if at < len(words) and words[at] == "<":
        at += 1
        while at < len(words) and words[at] != ">":
            if at + 1 < len(words) and words[at + 1] == "=":
                at += 2
            one, after = parsed(words, at)
            inner.append(one)
            at = max(after, at + 1)
            at += at < len(words) and words[at] == ","
        at += 1
    while at + 1 < len(words) and words[at] == "+":
        _, at = parsed(words, at + 1)
    return (name, tuple(inner)), at


def type_of(text):
    return parsed(tokens(text))[0]


def closing(words, at):
    """The place behind the bracket that closes the one at a place. Angles count only where they open it."""
    pairs = ("<", ">") if words[at] == "<" else None
    depth = 0
    while at < len(words):
        word = words[at]
        if pairs:
            depth += (word == "<") - (word == ">")
        else:
            depth += (word in "([{") - (word in ")]}")
        at += 1
        if not depth:
            break
    return at


def split(words):
    """The parts between the commas that no bracket holds."""
    parts, depth = [[]], 0
    for word in words:
        depth += (word in OPEN) - (word in CLOSED)
        if word == "," and not depth:
            parts.append([])
        else:
            parts[-1].append(word)
    return [part for part in parts if part]


class Function:
    """A function of a source: what its head declares, and the tokens of its body."""

    def __init__(self, source, number, owner, trait, bounds, lines):
        self.file, self.number, self.owner, self.trait = source.file, number, owner, trait
        text = " ".join(line.split(" // ")[0].strip() for _, line in lines)
        head, _, body = text.partition("{")
        self.name = HEAD.match(head)[1]
        self.is_public = head.startswith("pub fn") or head.startswith("pub const fn")
        self.is_export = "extern" in head.split("fn ")[0]
        self.is_law = body.strip() == "}"
        words = tokens(head)
        at = words.index(self.name) + 1
        self.bounds = dict(bounds)
        if words[at] == "<":
            end = closing(words, at)
            self.bounds.update(bounds_of(words[at + 1:end - 1]))
            at = end
        end = closing(words, at)
        self.params = {}
        for part in split(words[at + 1:end - 1]):
            part = [word for word in part if word != "mut"]
            if len(part) > 2 and part[1] == ":":
                self.params[part[0]] = parsed(part, 2)[0]
        rest = words[end:]
        self.gives = parsed(rest, rest.index("->") + 1)[0] if "->" in rest else ("()", ())
        if "where" in rest:
            self.bounds.update(bounds_of(rest[rest.index("where") + 1:]))
        self.body = tokens(body)


def bounds_of(words):
    """The traits that type parameters are bound to."""
    found = {}
    for part in split(words):
        if len(part) > 1 and part[1] == ":":
            found[part[0]] = {word for word in part[2:] if word[:1].isupper()}
        elif part and part[0][:1].isupper():
            found[part[0]] = set()
    return found


class Declared:
    """All that some sources declare. `below` has what each crate stands on."""

    def __init__(self, found, below, crate_of):
        self.crate_of, self.below = crate_of, {crate: self.all_below(crate, below) for crate in below}
        self.functions, self.fields, self.variants = [], defaultdict(dict), defaultdict(dict)
        self.types, self.traits, self.aliases, self.constants = defaultdict(set), defaultdict(set), {}, {}
        self.imports, self.rest = defaultdict(dict), defaultdict(list)
        for source in found:
            self.read(source)
        self.methods, self.free = defaultdict(list), defaultdict(list)
        for one in self.functions:
            (self.methods if one.owner else self.free)[one.name].append(one)

    @staticmethod
    def all_below(crate, below):
        found, todo = {crate}, [crate]
        while todo:
            for one in below.get(todo.pop(), ()):
                if one in below and one not in found:
                    found.add(one)
                    todo.append(one)
        return found

    # ---- what the sources declare

    def read(self, source):
        crate, lines = self.crate_of(source.file), [(number, line) for number, line in source.code]
        self.read_imports(source.file, " ".join(line.strip() for _, line in lines))
        owner, trait, bounds, taken = None, None, {}, 0
        for at, (number, line) in enumerate(lines):
            if at < taken:
                continue
            block = re.match(r"(?:pub(?:\([^)]*\))? )?(impl\b|trait\b|struct\b|enum\b|macro_rules!)", line)
            if block and not line.startswith(" "):
                owner, trait, bounds = self.read_block(crate, source.file, [text for _, text in lines[at:]], block[1])
            elif line == "}":
                owner, trait, bounds = None, None, {}
            elif HEAD.match(line.strip()) and len(line) - len(line.lstrip()) == (4 if owner else 0):
                own = list(source.extent(at, re.match(" *", line)[0]))
                self.functions.append(Function(source, number, owner, trait, bounds, own))
                taken = at + len(own)
            elif not owner:
                constant = re.match(r"(?:pub(?:\([^)]*\))? )?(?:const|static) (\w+): ([^=]+)", line)
                alias = re.match(r"(?:pub(?:\([^)]*\))? )?type (\w+)(?:<[^=]*>)? = ([^;]+)", line)
                if constant:
                    self.constants[constant[1]] = type_of(constant[2])
                if alias:
                    self.aliases[alias[1]] = type_of(alias[2])
                self.rest[source.file] += tokens(line) if not re.match(r"(pub )?(use|mod) ", line) else []

    def read_block(self, crate, file, lines, kind):
        end = 1 if lines[0].endswith(";") else next((k for k, line in enumerate(lines) if line == "}"), 0) + 1
        text = " ".join(line.split(" // ")[0].strip() for line in lines[:end])
        words = tokens(text)
        at = words.index(kind.rstrip("!")) + 1
        if kind.startswith("macro"):
            self.rest[file] += words
            return ("macro", None, {})
        bounds = {}
        if words[at] == "<":
            end = closing(words, at)
            bounds, at = bounds_of(words[at + 1:end - 1]), end
        named, at = parsed(words, at)
        if kind == "impl":
            if at < len(words) and words[at] == "for":
                return parsed(words, at + 1)[0][0], named[0], bounds
            return named[0], None, bounds
        if kind == "trait":
            self.traits[named[0]].add(crate)
            return named[0], named[0], bounds
        self.types[named[0]].add(crate)
        body = words[words.index("{") + 1:-1] if "{" in words else words[words.index("("):] if "(" in words else []
        if kind == "struct":
            self.read_fields(self.fields[crate, named[0]], body)
        else:
            self.read_variants(self.variants[crate, named[0]], body)
        return named[0], None, bounds

    @staticmethod
    def read_fields(fields, body):
        if body[:1] == ["("]:
            parts = split(body[1:closing(body, 0) - 1])
            fields.update({str(k): parsed([word for word in part if word != "pub"])[0] for k, part in enumerate(parts)})
            return
        for part in split(body):
            part = part[part.index(":") - 1:] if ":" in part else []
            if part:
                fields[part[0]] = parsed(part, 2)[0]

    def read_variants(self, variants, body):
        for part in split(body):
            while part[:1] == ["#"]:
                part = part[closing(part, 1):]
            if len(part) > 1 and part[1] in "({":
                inner = part[2:closing(part, 1) - 1]
                variants[part[0]] = {}
                self.read_fields(variants[part[0]], part[1:] if part[1] == "(" else inner)

    def read_imports(self, file, text):
        """Each name that a file imports, with the path that it has there."""
        for path in re.findall(r"\buse ([^;]+);", text):
            self.spread(file, "", path.strip())

    def spread(self, file, front, path):
        depth, begun = 0, 0
        if path.endswith("}"):
            head, inner = path.split("{", 1)
            for at, letter in enumerate(inner):
                depth += (letter == "{") - (letter == "}")
                if letter == "," and not depth or depth < 0:
                    if inner[begun:at].strip():
                        self.spread(file, front + head.strip(), inner[begun:at].strip())
                    begun = at + 1
            return
        whole, _, name = (front + path).partition(" as ")
        self.imports[file][name.strip() or whole.split("::")[-1]] = whole.split("::")

    # ---- what a name stands for

    def crates_of(self, file, name):
        """The crates that a name of a type may be of: that of its import, or the file's own, or those below."""
        own = self.crate_of(file)
        path = self.imports[file].get(name)
        declared = self.types.get(name, set()) | self.traits.get(name, set())
        if own in declared and (not path or path[0] in ("crate", "super", "self")):
            return {own}
        near = self.below.get(path[0], set()) if path else self.below[own]
        return declared & near if not path or path[0] not in declared else {path[0]}

    def functions_named(self, file, path):
        """The free functions that a path may name."""
        name, own = path[-1], self.crate_of(file)
        if len(path) == 1:
            here = [one for one in self.free[name] if one.file == file]
            if here:
                return here
            path = self.imports[file].get(name) or path
            if len(path) == 1:
                return [one for one in self.free[name] if self.crate_of(one.file) == own]
        elif path[0] in self.imports[file]:
            path = self.imports[file][path[0]] + path[1:]
        crate = path[0] if path[0] in self.below else own
        name = path[-1]
        exact = [one for one in self.free[name] if self.crate_of(one.file) == crate]
        within = [one for one in exact if len(path) > 2 and path[-2] in (one.file.stem, one.file.parent.name)]
        return within or exact or [one for one in self.free[name] if self.crate_of(one.file) in self.below[crate]]

    def methods_of(self, file, kind, name, bounds):
        """The methods of that name of a type, or `None` where nothing is known of it, or it seems to have none."""
        kind = self.aliases[kind][0] if kind in self.aliases and kind not in self.types else kind
        if kind in bounds or kind in self.traits:
            asked = bounds.get(kind, {kind})
            own = {trait for trait in asked if trait in self.traits}
            return [one for one in self.methods[name] if one.trait in own]
        if kind in self.types:
            wanted = self.crates_of(file, kind) or self.types[kind]
            near = [one for one in self.methods[name] if one.owner == kind]
            return [one for one in near if wanted & {self.crate_of(one.file), *self.of_owner(one)}] or None
        if kind in ("", "_"):
            return None
        return []

    def of_owner(self, one):
        """The crates that the type may be of that a method is of."""
        return self.crates_of(one.file, one.owner)
