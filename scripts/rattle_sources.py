"""Reads the functions, types and traits of .rt files, as far as `list_calls.py` needs them."""
import functools
import os
import re

RUNNERS = ["guide"]  # and each crate of tests
NOT_LISTED = re.compile(r"promises|theorems|guide|tiekvorn|tour")


def libraries():
    """The libraries of crates.txt in its order, without programs, theorems, the guide and the facade."""
    with open("crates.txt", encoding="utf-8") as file:
        listed = re.findall(r"^(\w+)[^:#\n]*:", file.read(), re.M)
    return [it for it in listed if not NOT_LISTED.match(it) and os.path.isfile(os.path.join("crates", it, "src", "lib.rt"))]


LIBRARIES = libraries()
# Words of contracts that mean errors without their names.
SPOKEN = {
    "AllocError": ["Memory"], "RefusesOrMemory": ["Memory"], "IsItemOrMemory": ["Memory"], "RefusedSome": ["Memory"],
    "WrongOffsets": ["Offsets"],
    "RefusesValidity": ["ValidityLength"],
    "FailFirst": ["first check"],
}
# Words of documentation and contracts that mean any error of a type; and one that does where no error is named.
ANY_ERROR = re.compile(r"\bthe errors of\b|\bReturnsOrRunsOut\b")
FIRST_ERROR = "first error"
STD = set("all any as_bytes as_str chars chunks clear clone cloned cmp collect contains count drop enumerate eq err expect "
          "extend filter find first flush fmt from get insert into into_iter is_empty is_err is_none is_ok is_some iter join "
          "last len lines map max min new next next_back ok or parse pop position push push_str read remove reserve rev skip "
          "sort split sum take then to truncate unwrap write zip".split())


def source(crate):
    """The folder of the sources of a crate, of tests/ or of crates/."""
    return os.path.join("tests" if os.path.isdir(os.path.join("tests", crate)) else "crates", crate, "src")


class Function:
    """A function of the sources, its documentation and its body."""

    def __init__(self, file, owner, generics, trait, name, docs, head, body, attributes, public):
        self.file, self.owner, self.generics, self.trait, self.name = file, owner, generics, trait, name
        self.docs, self.head, self.body, self.public = docs, head, body, public
        self.is_test = "#[test]" in attributes
        self.tests, self.refused, self.errors = [], [], set()
        sign = re.split(r"\n\s*(?:requires|ensures|where|ghost)\b", head)[0].rstrip(" {;\n")
        own = re.match(r".*?fn \w+(<)?", sign, re.S)
        at = own.end() - 1 if own[1] else own.end()
        end = closing(sign, at) if own[1] else at
        self.generics = dict(generics, **bounds(sign[at + 1 : end - 1])) if own[1] else dict(generics)
        stop = closing(sign, end) if sign[end : end + 1] == "(" else end
        self.params = [p.split(":", 1) for p in pieces(sign[end + 1 : stop - 1])]
        self.result = parse_type(sign[stop:].split("->", 1)[1]) if "->" in sign[stop:] else None

    def shown(self):
        return f"{self.owner[0]}::{self.name}" if self.owner else self.name

    def path(self):
        return "::".join([self.file.crate, *self.file.module, *([self.owner[0]] if self.owner else []), self.name])


class File:
    def __init__(self, crate, path):
        self.crate, self.text = crate, open(path, encoding="utf-8").read()
        inside = os.path.relpath(path, source(crate))[:-3]
        self.module = [p for p in inside.split(os.sep) if p not in ("mod", "lib", "main")]
        plain = re.sub(r"//[^\n]*|^ghost use[^\n]*", "", self.text, flags=re.M)
        self.uses = {name: through_facade(use) for found in re.finditer(r"(?:^|\n)\s*(?:pub )?use ([^;]+);", plain) for name, use in imports(found[1])}
        aliases = re.findall(r"^(?:pub )?type (\w+)(<[^=]*>)? = ([^;]+);", plain, re.M)
        self.aliases = {name: (names(generics or ""), parse_type(kind)) for name, generics, kind in aliases}


def closing(text, at):
    """The position after the bracket that closes the one at this position."""
    depth = 0
    for i in range(at, len(text)):
        c = text[i]
        if c in "([{" or c == "<" and text[at] == "<":
            depth += 1
        elif c in ")]}" or c == ">" and text[at] == "<" and text[i - 1] not in "-=":
            depth -= 1
            if depth == 0:
                return i + 1
    return len(text)


def pieces(text):
    """The parts between commas outside of brackets."""
    out, depth, last = [], 0, 0
    for i, c in enumerate(text):
        if c in "([{<":
            depth += 1
        elif c in ")]}" or c == ">" and text[i - 1] not in "-=":
            depth -= 1
        elif c == "," and depth == 0:
            out.append(text[last:i])
            last = i + 1
    return [p.strip() for p in out + [text[last:]] if p.strip()]


def names(generics):
    return [p.split(":")[0].strip() for p in pieces(generics.strip()[1:-1]) if not p.startswith("'")]


def bounds(generics):
    """The type parameters, each with its first bound."""
    split = (p.split(":", 1) for p in pieces(generics) if not p.startswith("'"))
    return {p[0].strip(): parse_type(p[1]) if len(p) > 1 and p[1].strip() else None for p in split}


def parse_type(text):
    """A type as a name and its arguments, without references and boxes."""
    text = re.sub(r"^(?:&|'\w+\b|mut\b|dyn\b|impl\b|\s)+", "", text.strip()).strip(" {;,")
    if text.startswith("("):
        return ("()", [parse_type(p) for p in pieces(text[1 : closing(text, 0) - 1])])
    if text.startswith("["):
        return ("[]", [parse_type(text[1:-1].split(";")[0])])
    found = re.match(r"(?:\w+::)*(\w+)(?:::)?(<)?", text)
    if not found:
        return None
    args = text[found.end() : closing(text, found.end() - 1) - 1] if found[2] else ""
    args = [parse_type(p.split("=")[-1]) for p in pieces(args) if not p.startswith("'")]
    return args[0] if found[1] in ("Box", "Rc") and args else (found[1], args)


def imports(text, before=""):
    text = text.strip()
    if "{" in text:
        start = text.index("{")
        for part in pieces(text[start + 1 : closing(text, start) - 1]):
            yield from imports(part, before + text[:start])
    else:
        path, _, name = (before + text).partition(" as ")
        path = path.removesuffix("::self")
        yield name or path.split("::")[-1], path


def through_facade(path):
    """The path in its own crate of an item that the facade exports."""
    return exported().get(path, path)


@functools.cache
def exported():
    """The path in its own crate of each item of the facade, by its path in the facade."""
    top, found = os.path.join("crates", "tiekvorn", "src"), {}
    for folder, _, inside in sorted(os.walk(top)):
        for name in (it for it in inside if it.endswith(".rt")):
            path = os.path.relpath(os.path.join(folder, name), top)[:-3]
            module = ["tiekvorn", *(it for it in path.split(os.sep) if it not in ("lib", "mod"))]
            with open(os.path.join(folder, name), encoding="utf-8") as file:
                text = re.sub(r"//[^\n]*", "", file.read())
            for it in re.finditer(r"pub mod (\w+) \{|pub use ([^;]+);|\}", text):
                if it[1]:
                    module.append(it[1])
                elif it[2]:
                    found |= {"::".join([*module, name]): path for name, path in imports(it[2])}
                elif len(module) > 1:
                    module.pop()
    return {name: found.get(path, path) for name, path in found.items()}


class Sources:
    def __init__(self):
        crates = sorted(os.listdir("crates"))
        self.runners = RUNNERS + sorted(c for c in os.listdir("tests") if os.path.isdir(os.path.join("tests", c)))
        self.functions, self.traits_of, self.supers, self.variants, self.aliases = [], {}, {}, {}, {}
        self.fields, self.public, self.exports, self.error_types = {}, {}, {}, {}
        self.blanket, files = [], []
        for crate in [c for c in LIBRARIES if c in crates] + [c for c in self.runners if c not in LIBRARIES]:
            for folder, _, inside in sorted(os.walk(source(crate))):
                files += [File(crate, os.path.join(folder, n)) for n in sorted(inside) if n.endswith(".rt")]
        for file in files:
            self.find_public(file)
        declared = ((f, name) for f in files for name in re.findall(r"^pub (?:struct|enum|trait) (\w+)", f.text, re.M))
        self.types = {name for file, name in declared if self.is_public(file, name)}
        for file in files:
            self.read(file)
        for function in self.functions:
            function.errors = self.errors_of(function)
        for parameter_trait, trait in self.blanket:
            for has in self.traits_of.values():
                if parameter_trait in has:
                    has.add(trait)
        self.methods, self.free = {}, {}
        for f in self.functions:
            if f.owner and (f.trait is None or f.owner[0] == f.trait):
                self.methods.setdefault((f.owner[0], f.name), f)
            elif not f.owner:
                self.free.setdefault((f.file.crate, f.name), []).append(f)
        self.calls = [f for f in self.functions if f.public and f.file.crate in LIBRARIES]
        named = {}
        for f in self.calls:
            named.setdefault(f.name, []).append(f)
        for f in self.functions:
            said = " ".join(f.docs).partition("# Errors")[2]
            for name in re.findall(r"\b(?:[Aa]s|[Tt]hose of)[^.`]*\[?`(\w+)`", said):
                same = [g for g in named.get(name, []) if g.owner and f.owner and g.owner[0] == f.owner[0]]
                free = [g for g in named.get(name, []) if not g.owner]
                for g in same or [g for g in free if g.file.crate == f.file.crate] or free:
                    f.errors |= g.errors
        self.lone = {n: fs[0] for n, fs in named.items() if len(fs) == 1 and fs[0].owner and n not in STD}

    def find_public(self, file):
        """Finds the public modules, and the names that a public module exports."""
        known = self.public.setdefault(file.crate, set())
        for name in re.findall(r"^pub mod (\w+);", file.text, re.M):
            known.add((*file.module, name))
        for found in re.finditer(r"^pub use ([^;]+);", file.text, re.M):
            for _, path in imports(found[1]):
                path = path.split("::")
                path = path[1:] if path[0] == "crate" else file.module + path
                self.exports.setdefault((file.crate, *path), []).append(tuple(file.module))

    def is_public(self, file, name):
        return self.is_open(file.crate, tuple(file.module), name)

    def is_open(self, crate, module, name):
        """Whether a name of a module can be named from outside: the module is public, or a module that is exports the name."""
        known = self.public[crate]
        if all(module[: i + 1] in known for i in range(len(module))):
            return True
        return any(self.is_open(crate, by, name) for by in self.exports.get((crate, *module, name), []))

    def read(self, file):
        text = file.text
        for found in re.finditer(r"^(pub )?(?:enum|struct) (\w+)(<[^{;(]*>)?[^{;]*\{(.*?)^\}", text, re.M | re.S):
            self.variants[found[2]] = {v: parse_type(t) for v, t in re.findall(r"^    (\w+)\((.*?)\),", found[4], re.M)}
            self.fields[found[2]] = {v: parse_type(t) for v, t in re.findall(r"^    (?:pub )?(\w+): (.*?),$", found[4], re.M)}
            if found[2].endswith("Error") and file.crate in LIBRARIES:
                self.error_types[found[2]] = found[4]
        if file.crate in LIBRARIES:
            self.aliases.update(file.aliases)
        owner, generics, trait, docs, attributes = None, {}, None, [], []
        shown = False
        for found in re.finditer(r"^( {0,4}(?:///|//|#\[|pub\b|impl|trait|fn |const fn |\}).*)$", text, re.M):
            line = found[1]
            word = line.strip()
            if word.startswith("///"):
                docs.append(word[3:].strip())
            elif word.startswith("#["):
                attributes.append(word)
            elif re.match(r"(?:pub )?(?:impl|trait)\b", line):
                head = text[found.start() : text.index("{", found.start())]
                owner, generics, trait = self.read_head(" ".join(head.split(" where ")[0].split()))
                shown = line.startswith("pub trait") and owner[0] in self.types
                docs, attributes = [], []
            elif line.startswith("}"):
                owner, generics, trait, docs, attributes, shown = None, {}, None, [], [], False
            elif re.match(r"\s*(?:pub(?:\(\w+\))? )?(?:const )?fn \w", line):
                inside = line.startswith("    ")
                if inside == (owner is not None):
                    self.add(file, found.start(), owner, generics, trait, docs, attributes, shown)
                docs, attributes = [], []
            elif not word.startswith("//"):
                docs, attributes = [], []

    def read_head(self, head):
        found = re.match(r"(?:pub )?(impl|trait) *(<)?", head)
        at = closing(head, found.end() - 1) if found[2] else found.end()
        generics = bounds(head[found.end() : at - 1]) if found[2] else {}
        rest = head[at:].strip()
        if found[1] == "trait":
            name, _, above = rest.partition(":")
            name = parse_type(name)
            self.supers[name[0]] = [parse_type(t)[0] for t in above.split("+") if parse_type(t)]
            return name, {a[0]: None for a in name[1] if a}, name[0]
        if " for " not in rest:
            return parse_type(rest), generics, None
        trait, owner = (parse_type(t) for t in rest.split(" for ", 1))
        if owner[0] in generics:
            self.blanket.append((generics[owner[0]] and generics[owner[0]][0], trait[0]))
        else:
            self.traits_of.setdefault(owner[0], set()).add(trait[0])
        return owner, generics, trait[0]

    def add(self, file, at, owner, generics, trait, docs, attributes, shown):
        text, indent = file.text, "    " if owner else ""
        opens = rf"(?:\) (?:-> [^\n]*)?\{{|^{indent}\{{)\n|;\n|\{{ *\}}\n"
        opened = re.compile(opens, re.M).search(text, at)
        stop = re.compile(rf"^{indent}\}}", re.M).search(text, opened.end() - 1)
        short = text[opened.start() : opened.end()].rstrip().endswith((";", "}"))
        head = text[at : opened.end()].rstrip(" {\n")
        body = "" if short else text[opened.end() : stop.start()]
        name = re.search(r"fn (\w+)", text[at:])[1]
        if owner and owner[0] == trait:
            public = shown
        else:
            written = re.compile(r" *pub (?:const )?fn ").match(text, at)
            public = bool(trait is None and written and (owner[0] in self.types if owner else self.is_public(file, name)))
        self.functions.append(Function(file, owner, generics, trait, name, docs, head, body, attributes, public))

    def error_names(self, kind):
        """The variants of an error type, and of the error types in them."""
        text = self.error_types.get(kind, "")
        inner = set(re.findall(r"\w+Error\b", text)) & set(self.error_types) - {kind}
        return set(re.findall(r"^    (\w+)(?: \{|\(|,$)", text, re.M)).union(*map(self.error_names, inner))

    def errors_of(self, function):
        """The names of errors in its documentation or its clauses, and those of another call where it says `as`."""
        sign = re.split(r"\n\s*(?:requires|ensures)\b", function.head)[0]
        if not function.result or "Result<" not in sign:
            return set()
        docs = " ".join(function.docs)
        docs = docs.partition("# Errors")[2] or " ".join(re.findall(r"`[^`]*`", docs))
        said = docs + " " + function.head.split("->", 1)[1]
        words = set(re.findall(r"\w+", said))
        meant = {error for word in words for error in SPOKEN.get(word, [])}
        if "the child refuses" in docs:
            meant |= {"ItemSize", "ItemType", "Overflow"}
        kind = next((it for it in reversed(re.findall(r"\w+", sign.split("->", 1)[1])) if it in self.error_types), "Error")
        named = words & self.error_names(kind) - {"OutOfSpec", "InvalidArgumentError"}
        if kind != "Error" and (ANY_ERROR.search(said) or FIRST_ERROR in docs and not named - {"Memory"}):
            meant.add(f"any {kind}")
        return named | meant

    def method(self, file, owner, name):
        """The call of that name of a type, else of a trait that it implements or that one of these needs; those that the file imports first."""
        seen, todo = set(), [owner]
        while todo:
            kind = todo.pop(0)
            if (kind, name) in self.methods:
                return self.methods[kind, name]
            seen.add(kind)
            above = (self.traits_of.get(kind, set()) | set(self.supers.get(kind, []))) - seen
            todo += sorted(above, key=lambda trait: (trait not in file.uses, trait))
        return None

    def find_free(self, file, path):
        """The function of a path without a type, as seen from this file."""
        *module, name = path
        if not module:
            return next((f for f in self.free.get((file.crate, name), []) if f.file is file), None)
        crate = module[0] if (module[0], name) in self.free else file.crate
        above = file.module
        while module and module[0] in ("super", "self", "crate", crate):
            above = above[:-1] if module[0] == "super" else above if module[0] == "self" else []
            module = module[1:]
        found = self.free.get((crate, name), [])
        exact = [f for f in found if f.file.module == above + module]
        ends = [f for f in found if module and f.file.module[-len(module) :] == module]
        shown = [f for f in found if f.public]
        return (exact + ends + (shown if len(shown) == 1 else found if len(found) == 1 else []) + [None])[0]

    def tests(self):
        inside = [f for f in self.functions if f.file.crate in self.runners]
        return [f for f in inside if f.is_test]
