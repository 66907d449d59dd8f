#!/usr/bin/env python3
"""Lists every public function of the libraries and of the program, its errors, and the tests that call it.

    python3 scripts/list_calls.py            writes the list to out/CALLS.md
    python3 scripts/list_calls.py --check    names each function that can return Memory and that no test calls, and each unknown
                                             test that docs/DIFFERENCES.md names; fails if there is one

It reads the .rt files alone, so it takes seconds on a fresh checkout. The head of the list says how a call is found.
A call that is not recognised is not listed; so a function without a test may still be called by one.
"""
import os
import re
import sys

sys.dont_write_bytecode = True
from rattle_sources import LIBRARIES, Sources, closing, parse_type, pieces

LIST = "out/CALLS.md"
HEAD = """# Every public call

Made by `scripts/list_calls.py` from the sources. A function of a trait has one row, for all types.
The errors are those that its documentation or its clauses name; where it says "as" another function, those of that one, too.
`first check` is the first check of its arguments that fails, and `any E` any error of that type. A test calls a function if its text, or that of a function of its
crate that it calls, has

- `Type::call(`, `Trait::call(`, or an imported `call(`; or
- `value.call(`, where the value's type is known: by its declaration, its pattern, or the function that returned it; or
- `value.call(` of a value of unknown type, where only one type or trait of the libraries has a function of that name, and the
  standard library has none.

A call whose result is compared with `Err`, or passed to a function `reject..`, `refus..` or `fail..`, returns no `Ok`: where a test
makes no other, it is `error only`. The list does not say whether a branch is reached. Calls inside of the libraries are not
counted. At most two tests are named.
"""

CHAIN = re.compile(r"(?<![\w.:'\"])([A-Za-z_]\w*(?:::(?:<|\w+))*)")
LET = re.compile(r"\blet\s+((?:mut\s+)?[\w:]+(?:\([^=;]*?\))?|\([^=;]*?\))\s*(:[^=;]+)?=\s*[&*]*(?:mut\s+)?$")


def unify(declared, given, found):
    """Finds the type arguments that make a declared type the given one."""
    if not declared or not given:
        return
    if declared[0] in found:
        found[declared[0]] = found[declared[0]] or given
    elif declared[0] == given[0]:
        for a, b in zip(declared[1], given[1]):
            unify(a, b, found)


def put(kind, found):
    """A type with its parameters replaced by the arguments found."""
    if kind is None or kind[0] in found:
        return kind and found[kind[0]]
    return (kind[0], [put(a, found) for a in kind[1]])


class Body:
    """The functions that one function calls, and which of them only for an error."""

    def __init__(self, sources, function):
        self.sources, self.function, self.file = sources, function, function.file
        self.text = re.sub(r"//[^\n]*", "", function.body)
        self.env = {"self": function.owner}
        self.made = {}  # a function, and whether one of its calls can return Ok
        self.typed = set()  # the positions of the dots before calls of values of known types
        for param in (p for p in function.params if len(p) == 2):
            self.bind(param[0], self.resolve(parse_type(param[1])))
        for found in CHAIN.finditer(self.text):
            self.chain(found.start())
        for found in re.finditer(r"\.(\w+)(?:::<[^()]*>)?\(", self.text):
            lone = sources.lone.get(found[1])
            if lone and found.start() not in self.typed:
                self.note(lone, found.start(), closing(self.text, found.end() - 1))

    def resolve(self, kind):
        """A type without aliases, whose parameters are replaced by their bounds."""
        if kind is None:
            return None
        if kind[0] in self.function.generics:
            return self.function.generics[kind[0]]
        args = [self.resolve(a) for a in kind[1]]
        for aliases in (self.file.aliases, self.sources.aliases):
            if kind[0] in aliases and aliases[kind[0]][1] != kind and kind[0] != "Result":
                params, meant = aliases[kind[0]]
                return self.resolve(put(meant, dict(zip(params, args))))
        return (kind[0], args)

    def bind(self, pattern, kind):
        """Sets the types of the names of a pattern."""
        pattern = re.sub(r"^(?:ref|mut|&|\s)+", "", pattern.strip())
        found = re.match(r"(?:(\w+)::)?(\w+)?\((.*)\)$", pattern, re.S)
        if re.match(r"\w+$", pattern):
            self.env[pattern] = kind
        elif found and found[1]:
            self.bind(found[3], self.sources.variants.get(found[1], {}).get(found[2]))
        elif found and found[2]:
            self.bind(found[3], kind[1][0] if kind and found[2] in ("Ok", "Some") and kind[1] else None)
        elif found:
            parts = pieces(found[3])
            for k, part in enumerate(parts):
                self.bind(part, kind[1][k] if kind and len(kind[1]) == len(parts) else None)

    def method(self, kind, name):
        return self.sources.method(self.file, kind[0], name) if kind else None

    def path(self, path):
        """The function of a path, and the type before its name."""
        *before, name = re.sub(r"::<.*", "", path).split("::")
        owner = self.resolve((before[-1], [])) if before else None
        if before and (before[-1][0].isupper() or self.method(owner, name)):
            return self.method(owner, name), owner
        whole = "::".join([*self.file.uses.get(before[0], before[0]).split("::"), *before[1:], name]) if before else (
            self.file.uses.get(name, name))
        return self.sources.find_free(self.file, whole.split("::")), None

    def chain(self, start):
        """Follows calls and fields from a name on, and returns the type of the expression."""
        text = self.text
        word = re.compile(r"[A-Za-z_]\w*(?:::\w+)*").match(text, start)
        at, name = word.end(), word[0]
        turbofish = None
        middle = re.compile(r"::<").match(text, at)
        if middle:  # Type::<A>::call, or call::<A>
            end = closing(text, at + 2)
            turbofish = [parse_type(p) for p in pieces(text[at + 3 : end - 1])]
            more = re.compile(r"::(\w+)").match(text, end)
            name, at = (name + more[0], more.end()) if more else (name, end)
        kind = self.env.get(name)
        if text[at : at + 1] == "(":
            called, owner = self.path(name)
            if owner and turbofish:
                owner = (owner[0], turbofish)
            made = owner if owner and self.sources.variants.get(owner[0]) else None  # Enum::Variant(..)
            kind, at = self.call(called, owner, start, at) if called else (made, closing(text, at))
        kind, at = self.follow(kind, start, at)
        self.bind_value(kind, start, at)
        return kind

    def follow(self, kind, start, at):
        text = self.text
        step = re.compile(r"\s*(\?)|\s*\.(\w+)(?:::<[^()]*>)?(\()?|\[")
        while found := step.match(text, at):
            at = found.end()
            if found[1]:
                kind = kind[1][0] if kind and kind[0] in ("Result", "Option") and kind[1] else None
            elif not found[2]:
                kind, at = (kind[1][0] if kind and kind[1] else None), closing(text, at - 1)
            elif found[3]:
                if kind:
                    self.typed.add(found.start(2) - 1)
                called = self.method(kind, found[2])
                if called:
                    kind, at = self.call(called, kind, start, at - 1)
                else:
                    kept = kind and kind[0] in ("Result", "Option") and kind[1]
                    opened = found[2] in ("expect", "unwrap", "unwrap_or")
                    kind = (kind[1][0] if opened else kind if found[2] in ("ok", "as_ref", "as_mut") else None) if kept else None
                    at = closing(text, at - 1)
            else:
                kind = self.sources.fields.get(kind[0], {}).get(found[2]) if kind else None
        return kind, at

    def call(self, called, owner, start, at):
        """Notes a call whose arguments begin here; returns the type of its result."""
        end = closing(self.text, at)
        found = {name: None for name in called.generics}
        if owner and called.owner and called.owner[0] == owner[0]:
            unify(called.owner, owner, found)
        given = pieces(self.text[at + 1 : end - 1])
        declared = [p for p in called.params if len(p) == 2]
        for param, text in zip(declared, given[-len(declared) :] if declared else []):
            self.unify_argument(parse_type(param[1]), text, found)
        self.note(called, start, end)
        found = {name: kind or called.generics[name] for name, kind in found.items()}
        if owner:
            found["Self"] = owner
        return self.resolve(put(called.result, found)), end

    def unify_argument(self, declared, text, found):
        text = re.sub(r"^(?:&|mut\b|\s)+", "", text)
        if re.match(r"\w+$", text):
            unify(declared, self.env.get(text), found)
        elif made := re.match(r"((?:\w+::)*\w+)\(", text):
            called, owner = self.path(made[1])
            unify(declared, called and self.resolve(put(called.result, {"Self": owner} if owner else {})), found)

    def note(self, called, start, end):
        """Notes the call. `== Err` or `, Err` after it, or after the name that it is bound to, means that it returns an error."""
        after = self.text[end : end + 120]
        refused = re.match(r"\s*(?:==|,)\s*(?:Some\()?Err\b(?![^\n]*=>)|\s*\.(?:err|is_err)\(", after)
        refused = refused or re.search(r"\b(?:refus|reject|fail)\w*\(\s*$", self.text[max(0, start - 60) : start])
        let = re.search(r"let\s+(?:mut\s+)?(\w+)(?:\s*:[^=;]+)?\s*=\s*[&*]*$", self.text[max(0, start - 120) : start])
        if let and re.match(r"\s*;", after):
            rest = self.text[end:].split(f"let {let[1]} ")[0]
            look = re.search(rf"\b{let[1]}(?: == Err|, Err|\.err\(|\.is_err\()|\b(?:refus|reject|fail)\w*\({let[1]}\)", rest)
            refused = look and not re.search(rf"\b{let[1]}(?:\?| == Ok)", rest)
        self.made[called] = self.made.get(called, False) or not refused

    def bind_value(self, kind, start, at):
        """Sets the type of the names that the value is bound to, by a `let`, a `for`, the arms of a `match` or a pattern."""
        before = self.text[max(0, start - 160) : start]
        let = LET.search(before)
        if let:
            declared = let[2] and self.resolve(parse_type(let[2][1:]))
            self.bind(let[1], declared or kind)
        loop = re.search(r"\bfor\s+(\w+)\s+in\s+[&]*$", before)
        if loop:
            self.bind(loop[1], kind[1][0] if kind and kind[1] else None)
        if re.search(r"\bmatch\s+[&*]*$", before) and self.text[at:].lstrip().startswith("{"):
            begin = self.text.index("{", at)
            for arm in re.finditer(r"^\s*((?:Ok|Some)\(.*\)) (?:=>|if)", self.text[begin : closing(self.text, begin)], re.M):
                self.bind(arm[1], kind)
        arm = re.compile(r"\w+::\w+\([\w, ]+\)(?=\s*(?:=>|if\b))").match(self.text, start)
        if arm:
            self.bind(arm[0], None)


def reached(sources, bodies, test):
    """The functions that a test calls, itself or by the functions of its own crate, and whether the call can return Ok."""
    seen, todo, out = {test: True}, [test], {}
    while todo:
        function = todo.pop()
        if function not in bodies:
            bodies[function] = Body(sources, function).made
        for called, ok in bodies[function].items():
            ok = ok and seen[function]
            out[called] = out.get(called, False) or ok
            if called.file.crate == test.file.crate and (called not in seen or ok and not seen[called]):
                seen[called] = ok
                todo.append(called)
    return out


def page(calls):
    lines = [HEAD]
    for crate in LIBRARIES:
        rows = [c for c in calls if c.file.crate == crate]
        if rows:
            lines += [f"## `{crate}`", "", "| Function | Module | Errors | Tests |", "|---|---|---|---|"]
            lines += [row(c) for c in rows] + [""]
    for title, some in (
        ("Functions that can return `Memory` and that no test calls", [c for c in calls if not c.tests and "Memory" in c.errors]),
        ("Other functions that no test calls", [c for c in calls if not c.tests and "Memory" not in c.errors]),
    ):
        named = [f"- `{c.shown()}` of `{'::'.join([c.file.crate, *c.file.module])}`" for c in some]
        lines += [f"## {title}", "", *(named or ["None."]), ""]
    return "\n".join(lines).rstrip("\n") + "\n"


def row(call):
    tests = [f"`{t.path()}`" for t in call.tests[:2]] + ([f"{len(call.tests) - 2} more"] if len(call.tests) > 2 else [])
    tests = ", ".join(tests) or ("error only: `" + call.refused[0].path() + "`" if call.refused else "none")
    where = "::".join(call.file.module) or "lib"
    return f"| `{call.shown()}` | `{where}` | {', '.join(sorted(call.errors, key=lambda e: (e == 'Memory', e)))} | {tests} |"


def unknown_tests(tests):
    """The names in the last cells of docs/DIFFERENCES.md that are no tests."""
    with open(os.path.join("docs", "DIFFERENCES.md"), encoding="utf-8") as differences:
        cells = re.findall(r"\| (`(?:\w+::)+\w+`(?:, `(?:\w+::)+\w+`)*) \|$", differences.read(), re.M)
    named = re.findall(r"\w[\w:]+", " ".join(cells))
    return sorted(set(named) - {it.path() for it in tests})


def main():
    sources, bodies = Sources(), {}
    for test in sources.tests():
        for called, ok in reached(sources, bodies, test).items():
            (called.tests if ok else called.refused).append(test)
    if "--check" not in sys.argv[1:]:
        os.makedirs("out", exist_ok=True)
        with open(LIST, "w", encoding="utf-8") as made:
            made.write(page(sources.calls))
        print(f"{LIST} lists {len(sources.calls)} functions")
        return
    missing = [c for c in sources.calls if not c.tests and "Memory" in c.errors]
    unknown = unknown_tests(sources.tests())
    for name in unknown:
        print(f"docs/DIFFERENCES.md names the unknown test {name}")
    for call in missing:
        print(f"no test calls {call.path()}")
    made = sum(1 for c in sources.calls if c.tests)
    print(f"{len(sources.calls)} functions, {made} called by a test; {len(missing)} that can return Memory are called by none")
    sys.exit(1 if missing or unknown else 0)


main()
