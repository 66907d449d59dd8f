"""Copies the libraries beside the tests or the benchmarks as one tree of crates, since `rt` reads the crates of one tree alone."""
import filecmp
import os
import re
import shutil

TOP = os.path.dirname(os.path.dirname(os.path.realpath(__file__)))
DATA = f"{TOP}/tests/data"
LISTS = {"crates": "crates.txt", "tests": "tests/tests.txt", "benches": "benches/benches.txt"}
PARTS = ("src", "specs", "proofs", "data")


def names_below(folder):
    """The crates of crates/, tests/ or benches/."""
    return sorted(it for it in os.listdir(f"{TOP}/{folder}") if os.path.isdir(f"{TOP}/{folder}/{it}/src"))


def uses_of(folder):
    """The crates that each crate of the folder uses."""
    lines = (it.partition(":") for it in read(f"{TOP}/{LISTS[folder]}").splitlines() if not it.startswith("#"))
    return {name: uses.split() for name, _, uses in lines if name.strip()}


def read(path, errors="strict"):
    with open(path, encoding="utf-8", errors=errors) as file:
        return file.read()


def write(path, text):
    """Writes a file, and leaves one that has this text already: what `rt` kept of it stays valid."""
    os.makedirs(os.path.dirname(path), exist_ok=True)
    if not os.path.isfile(path) or read(path) != text:
        with open(path, "w", encoding="utf-8") as file:
            file.write(text)


def mirror(given, laid):
    """Makes a folder equal to another, and leaves files that are equal already."""
    os.makedirs(laid, exist_ok=True)
    for name in os.listdir(laid):
        if not os.path.lexists(f"{given}/{name}"):
            shutil.rmtree(f"{laid}/{name}") if os.path.isdir(f"{laid}/{name}") else os.remove(f"{laid}/{name}")
    for name in os.listdir(given):
        if os.path.isdir(f"{given}/{name}"):
            mirror(f"{given}/{name}", f"{laid}/{name}")
        elif not os.path.isfile(f"{laid}/{name}") or not filecmp.cmp(f"{given}/{name}", f"{laid}/{name}", shallow=False):
            shutil.copyfile(f"{given}/{name}", f"{laid}/{name}")


def lay(room, folders):
    """Copies the crates of the folders below the room, which may have some from before."""
    write(f"{room}/crates.txt", "".join(read(f"{TOP}/{LISTS[it]}") for it in folders))
    shutil.copyfile(f"{TOP}/HANDLES", f"{room}/HANDLES")
    for folder in folders:
        for name in names_below(folder):
            for part in PARTS:
                if os.path.isdir(f"{TOP}/{folder}/{name}/{part}"):
                    mirror(f"{TOP}/{folder}/{name}/{part}", f"{room}/crates/{name}/{part}")


def join(room, crate, modules):
    """Writes one library of several crates of tests/ and benches/, each of them as a module, so that all below is built once.

    `modules` has the folder and the name of each. A `main` becomes the test `small_sizes`.
    """
    uses = {folder: uses_of(folder) for folder in ("tests", "benches")}
    of_modules = [it for folder, name in modules for it in uses[folder][name]]
    names = [name for _, name in modules]
    below = dict.fromkeys(it for it in of_modules if it not in names)
    write(f"{room}/crates.txt", f"{read(f'{room}/crates.txt')}\n{crate}: {' '.join(below)}\n")
    write(f"{room}/crates/{crate}/src/lib.rt", "".join(["#![tactic(auto)]\n\n", *(f"pub mod {it};\n" for it in names)]))
    for folder, name in modules:
        given = f"{TOP}/{folder}/{name}"
        for at, _, files in os.walk(f"{given}/src"):
            for file in files:
                text = as_module(name, [it for it in uses[folder][name] if it in names], read(f"{at}/{file}"))
                place = os.path.relpath(f"{at}/{'mod.rt' if at == f'{given}/src' and file in ('lib.rt', 'main.rt') else file}", given)
                write(f"{room}/crates/{crate}/src/{name}/{place.removeprefix('src/')}", text)


def as_module(name, beside, text):
    """A file of a crate as one of a module of this name, beside the modules of crates that it uses."""
    text = text.replace("#![tactic(auto)]\n", "").replace("fn main(rt: HostRuntime)", "#[test]\nfn small_sizes(rt: HostRuntime)")
    text = re.sub(r"(?<![\w:$])crate::", f"crate::{name}::", text)
    for other in beside:
        text = re.sub(rf"(?<![\w:]){other}::", f"crate::{other}::", text)
    return embed(text)


def embed(text):
    """Writes out `include_bytes!("FILE")` and `samples!("FOLDER")`, of files and folders of tests/data."""
    text = re.sub(r'include_bytes!\(\s*"([\w/.]+)"\s*\)', lambda it: bytes_of(f"{DATA}/{it[1]}"), text)
    return re.sub(r'samples!\(\s*"([\w/]+)"\s*\)', lambda it: samples_of(f"{DATA}/{it[1]}"), text)


def samples_of(folder):
    """An array of the samples of a folder: NAME.txt is the text that belongs to the bytes of NAME.arrow, NAME.arrows or NAME.message."""
    samples = []
    for file in sorted(it for it in os.listdir(folder) if not it.endswith(".txt")):
        name = file.partition(".")[0]
        samples.append(f'Sample {{ name: "{name}", bytes: {bytes_of(f"{folder}/{file}")}, text: {literal(read(f"{folder}/{name}.txt"))} }}')
    return f"[{', '.join(samples)}]"


def literal(text):
    """A string literal of the text."""
    escaped = text.replace("\\", "\\\\").replace('"', '\\"')
    return '"' + "".join(it if it.isprintable() else f"\\u{{{ord(it):x}}}" for it in escaped) + '"'


def bytes_of(path):
    with open(path, "rb") as file:
        return 'b"' + "".join(f"\\x{it:02x}" for it in file.read()) + '"'
