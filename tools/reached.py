"""Which functions of some sources `main` or an export reaches, by a call graph over the types of receivers.

The type of a receiver is what parameters, fields, variants, constants, bindings and the returns of known functions declare. A call
whose receiver stays unknown may be of each method of its name, so what is said to be unreached is so. A call by a trait reaches what
each implementation says; what implements a trait of another repository is called by that, and counts as reached.
"""

import re
from collections import defaultdict

from declared import CLOSED, OPEN, Declared, closing, parsed, split

# What a wrapper of the standard library hands on: the type itself, or what it holds.
SAME = set("""as_ref as_mut as_deref clone copied cloned take iter iter_mut into_iter rev skip take_while as_slice as_mut_slice by_ref
    to_vec borrow borrow_mut try_borrow_mut ok_or ok_or_else or or_else filter peekable replace""".split())
HELD = set("unwrap unwrap_or unwrap_or_else unwrap_or_default expect".split())
PICKED = set("first last get get_mut first_mut last_mut pop next next_back peek nth min max find max_by_key min_by_key".split())


class Scope:
    """The types of the names in a function, and the calls of its body."""

    def __init__(self, program, function):
        self.program, self.function, self.words = program, function, function.body
        self.names = defaultdict(set)
        for name, kind in function.params.items():
            self.names[name].add(kind)
        if function.owner:
            self.names["self"].add((function.owner, ()))
        self.bounds = function.bounds
        for _ in range(3):
            self.bind()

    def whole(self, kind):
        """A type with the names that stand for another."""
        name, inner = kind
        if name == "Self":
            return (self.function.owner, inner)
        return self.program.aliases.get(name, kind) if name not in self.program.types else kind

    # ---- bindings

    def bind(self):
        words = self.words
        for at, word in enumerate(words):
            if word == "let":
                self.bind_let(at + 1)
            elif word == "for" and "in" in words[at:at + 12]:
                place = words.index("in", at)
                self.bind_pattern(words[at + 1:place], {self.element(kind) for kind in self.value(place + 1)[0]})
            elif word == "match":
                self.bind_arms(at + 1)

    def bind_let(self, at):
        words, end = self.words, at
        depth = 0
        while end < len(words) and (depth or words[end] not in ("=", ";")):
            depth += (words[end] in OPEN) - (words[end] in CLOSED)
            end += 1
        pattern = words[at:end]
        colons = [k for k, word in enumerate(pattern) if word == ":" and not self.depth(pattern[:k])]
        if colons:
            self.bind_pattern(pattern[:colons[0]], {parsed(pattern, colons[0] + 1)[0]})
        elif end < len(words) and words[end] == "=":
            self.bind_pattern(pattern, self.value(end + 1)[0])

    @staticmethod
    def depth(words):
        return sum((word in "([{") - (word in ")]}") for word in words)

    def bind_arms(self, at):
        kinds, end = self.value(at)
        if end >= len(self.words) or self.words[end] != "{":
            return
        last, begun, at, depth = closing(self.words, end), end + 1, end + 1, 0
        while at < last:
            word = self.words[at]
            if word == "=>" and not depth:
                self.bind_pattern(self.words[begun:at], kinds)
                at += 1
                if at < last and self.words[at] == "{":
                    at = closing(self.words, at)
                    begun = at + (at < last and self.words[at] == ",")
                    at = begun
                    continue
                while at < last - 1 and (depth or self.words[at] != ","):
                    depth += (self.words[at] in "([{") - (self.words[at] in ")]}")
                    at += 1
                begun = at + 1
            else:
                depth += (word in "([{") - (word in ")]}")
            at += 1

    def bind_pattern(self, pattern, kinds):
        pattern = [word for word in pattern if word not in ("mut", "&", "ref", "|")]
        if "if" in pattern:
            pattern = pattern[:pattern.index("if")]
        if not pattern:
            return
        kinds = {self.whole(kind) for kind in kinds}
        if len(pattern) == 1:
            if re.match(r"[a-z]", pattern[0]):
                self.names[pattern[0]] |= kinds
            return
        if pattern[0] == "(":
            for k, part in enumerate(split(pattern[1:closing(pattern, 0) - 1])):
                self.bind_pattern(part, {kind[1][k] for kind in kinds if kind[0] == "()" and k < len(kind[1])})
            return
        at = 0
        while at + 2 < len(pattern) and pattern[at + 1] == "::":
            at += 2
        name, owner = pattern[at], pattern[at - 2] if at > 1 else None
        if at + 1 >= len(pattern) or pattern[at + 1] not in "({":
            return
        parts = split(pattern[at + 2:closing(pattern, at + 1) - 1])
        if name in ("Some", "Ok", "Err"):
            held = {kind[1][name == "Err"] for kind in kinds if len(kind[1]) > (name == "Err")}
            for part in parts:
                self.bind_pattern(part, held)
        else:
            fields = self.payload(name, owner)
            for k, part in enumerate(parts):
                if pattern[at + 1] == "(":
                    self.bind_pattern(part, {fields[str(k)]} if str(k) in fields else set())
                elif part[0] in fields:
                    self.bind_pattern(part[2:] or part[:1], {fields[part[0]]})
        last = closing(pattern, at + 1)
        if last < len(pattern):
            self.bind_pattern(pattern[last:], kinds)

    def payload(self, name, owner):
        """The fields of a variant, or of a struct that a pattern takes apart."""
        owner = self.function.owner if owner == "Self" else owner
        found = {}
        for (_, kind), variants in self.program.variants.items():
            if owner in (kind, None) and name in variants:
                found.update(variants[name])
        for (_, kind), fields in self.program.fields.items():
            if kind == (self.function.owner if name == "Self" else name) and owner is None:
                found.update(fields)
        return found

    # ---- the types of expressions

    @staticmethod
    def element(kind):
        name, inner = kind
        return inner[0] if inner and name not in ("()", "Result") else ("", ())

    def value(self, at):
        """The types that the expression has that begins at a place, and the place behind its chain of calls."""
        words = self.words
        while at < len(words) and words[at] in ("&", "*", "mut", "!", "-"):
            at += 1
        if at >= len(words):
            return {("", ())}, at
        word = words[at]
        if word == "(":
            end = closing(words, at)
            kinds, behind = self.value(at + 1)
            return self.chain(kinds if behind == end - 1 else {("", ())}, end)
        if word == "match" or word == "if" or word == "{" or word == "[":
            return {("", ())}, at + 1
        path, end = [word], at + 1
        if not re.match(r"[A-Za-z_]\w*$", word):
            return {("number", ())}, end
        while end + 1 < len(words) and words[end] == "::":
            if words[end + 1] == "<":
                end = closing(words, end + 1)
            else:
                path.append(words[end + 1])
                end += 2
        kinds, end = self.of_name(path, end)
        if end < len(words) and words[end] == "{" and path[-1][:1].isupper() and word != "match":
            kinds = {self.whole((path[-2] if len(path) > 1 and path[-2][:1].isupper() else path[-1], ()))}
        return self.chain({self.whole(kind) for kind in kinds} or {("", ())}, end)

    def of_name(self, path, end):
        """The types of what a path names, or gives where it is called, and the place behind that."""
        words, kinds = self.words, set()
        if end < len(words) and words[end] == "(":
            for one in self.of_path(path):
                kinds.add(self.given(one))
            if path[-1] in ("Some", "Ok", "Err") and len(path) == 1:
                inner = self.value(end + 1)[0]
                whole = "Option" if path[0] == "Some" else "Result"
                kinds = {(whole, (("", ()), kind) if path[0] == "Err" else (kind,)) for kind in inner}
            elif path[-1][:1].isupper():
                kinds = {(path[-2] if len(path) > 1 else path[-1], ())}
            end = closing(words, end)
        elif len(path) == 1:
            kinds = set(self.names.get(path[0], ()))
            if path[0] in self.program.constants:
                kinds.add(self.program.constants[path[0]])
            if path[0][:1].isupper() and not kinds:
                kinds = {(path[0], ())}
        elif path[-1] in self.program.constants:
            kinds = {self.program.constants[path[-1]]}
        elif path[-1][:1].isupper():
            kinds = {(path[-2], ())}
        return kinds, end

    def given(self, one):
        """What a function gives, with its owner in place of `Self`."""
        def put(kind):
            return (one.owner if kind[0] == "Self" and one.owner else kind[0], tuple(map(put, kind[1])))
        kind = put(one.gives)
        return ("", ()) if kind[0] in one.bounds and kind[0] not in self.bounds else kind

    def chain(self, kinds, at):
        words = self.words
        while at < len(words):
            if words[at] == "?":
                kinds, at = {self.element(kind) if kind[0] != "Result" else (kind[1] or (("", ()),))[0] for kind in kinds}, at + 1
            elif words[at] == "[":
                kinds, at = {self.element(kind) if ".." not in words[at:closing(words, at)] else kind for kind in kinds}, closing(words, at)
            elif words[at] == "." and at + 1 < len(words):
                name, at = words[at + 1], at + 2
                while at + 1 < len(words) and words[at] == "::":
                    at = closing(words, at + 1)
                if at < len(words) and words[at] == "(":
                    kinds, at = self.after_call(kinds, name), closing(words, at)
                else:
                    kinds = {self.field(kind, name) for kind in kinds}
                kinds = {self.whole(kind) for kind in kinds} or {("", ())}
            else:
                break
        return kinds, at

    def field(self, kind, name):
        if kind[0] == "()" and name.isdigit():
            return kind[1][int(name)] if int(name) < len(kind[1]) else ("", ())
        found = {fields[name] for (crate, owner), fields in self.program.fields.items() if owner == kind[0] and name in fields}
        return found.pop() if len(found) == 1 else ("", ())

    def after_call(self, kinds, name):
        found = set()
        for kind in kinds:
            fit = self.program.methods_of(self.function.file, kind[0], name, self.bounds)
            if fit:
                found |= {self.given(one) for one in fit}
            elif kind[0] in ("Box", "Rc", "RefCell") and kind[1]:
                found |= self.after_call({kind[1][0]}, name)
            elif kind[0] in ("Option", "Result", "Vec", "VecDeque", "ArrayVec", "[]") and kind[1]:
                held = kind[1][0]
                found.add(kind if name in SAME else held if name in HELD else ("Option", (held,)) if name in PICKED else ("", ()))
            elif name == "clone":
                found.add(kind)
            else:
                found.add(("", ()))
        return found or {("", ())}

    # ---- calls

    def of_path(self, path):
        """The functions that a path may name."""
        program, file = self.program, self.function.file
        if len(path) > 1 and (path[-2][:1].isupper() or path[-2] in self.bounds):
            owner = self.function.owner if path[-2] == "Self" else path[-2]
            found = program.methods_of(file, owner, path[-1], self.bounds)
            return found or []
        return program.functions_named(file, path)

    def calls(self):
        words = self.words
        for at, word in enumerate(words):
            behind = words[at - 1] if at else ""
            if not re.match(r"[A-Za-z_]\w*$", word) or behind in (".", "::"):
                continue
            path, end = [word], at + 1
            while end + 1 < len(words) and words[end] == "::":
                if words[end + 1] == "<":
                    end = closing(words, end + 1)
                else:
                    path.append(words[end + 1])
                    end += 2
            if len(path) > 1 or end < len(words) and words[end] == "(" or word not in self.names:
                yield from self.of_path(path)
        for at in range(len(words) - 1):
            if words[at] == "." and re.match(r"[a-z_]\w*$", words[at + 1]) and at + 2 < len(words) and words[at + 2] in ("(", "::"):
                yield from self.methods_at(at)

    def methods_at(self, at):
        name, program = self.words[at + 1], self.program
        known = self.receiver(at)
        for kind in known:
            fit = program.methods_of(self.function.file, kind[0], name, self.bounds)
            if not fit and kind[0] in ("Box", "Rc", "RefCell", "Result", "Option") and kind[1]:
                fit = program.methods_of(self.function.file, kind[1][0][0], name, self.bounds)
            if fit is None:
                near = program.below[program.crate_of(self.function.file)]
                fit = [one for one in program.methods[name] if program.crate_of(one.file) in near]
            yield from fit

    def receiver(self, at):
        """The types of what stands before a dot: those of the chain that ends there."""
        for begin in range(self.begun(at), at):
            kinds, end = self.value_to(begin, at)
            if end == at:
                return kinds
        return {("", ())}

    def value_to(self, begin, at):
        """The types of the chain that begins at a place, up to a dot."""
        kept, self.words = self.words, self.words[:at]
        try:
            return self.value(begin)
        finally:
            self.words = kept

    def begun(self, at):
        """The place where the chain begins that ends before a dot."""
        words, at = self.words, at - 1
        while at >= 0:
            if words[at] in ")]":
                depth = 0
                while at >= 0:
                    depth += (words[at] in ")]") - (words[at] in "([")
                    at -= 1
                    if not depth:
                        break
                if at >= 0 and (re.match(r"\w+$", words[at]) or words[at] in ("?", ">")):
                    continue
                if at >= 0 and words[at] == ".":
                    at -= 1
                    continue
                return at + 1
            if words[at] == "?":
                at -= 1
                continue
            if words[at] == ">":
                depth = 0
                while at >= 0:
                    depth += (words[at] == ">") - (words[at] == "<")
                    at -= 1
                    if not depth:
                        break
                at -= at >= 0 and words[at] == "::"
                continue
            if re.match(r"\w+$", words[at]):
                if at and words[at - 1] in (".", "::"):
                    at -= 2
                    continue
                return at
            return at + 1
        return 0


def reached(program, mains):
    """The functions that the mains and the exports of some crates reach."""
    roots = [one for one in program.functions
             if one.is_export or one.name == "main" and not one.owner and program.crate_of(one.file) in mains]
    roots += [one for one in program.functions if one.trait and one.trait not in program.traits]
    for file, words in program.rest.items():
        roots += [one for word in set(words) for one in program.functions_named(file, [word])]
        roots += [one for word in set(words) for one in program.methods[word] if one.file == file]
    seen, todo = set(), roots
    while todo:
        one = todo.pop()
        if one not in seen:
            seen.add(one)
            todo += Scope(program, one).calls()
    return seen


def unreached(found, below, crate_of, mains):
    """The public functions that do something and that nothing reaches: each with its name and its owner's."""
    program = Declared(found, below, crate_of)
    seen = reached(program, mains)
    for one in program.functions:
        if one.is_public and not one.is_law and one not in seen and not one.trait:
            yield one, f"{one.owner}::{one.name}" if one.owner else one.name
