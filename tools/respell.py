#!/usr/bin/env python3
"""Brings the names of this repository's definitions and lemmas to today's spelling: `python3 tools/respell.py`, once, after port.py.

A function, a lemma, a field, a constructor or a variable of specs/ and proofs/ is written in snake case: `scratchSize` is `scratch_size`,
`count-half` is `count_half`. Types and modules keep their capitals. A lemma that would have the name of a definition ends in `_lem`.
Names of src/, exported names, strings, inputs and outputs stay, and so do names of the library. In must-fail/ and in pages the same
names are turned, and those that port.py turned; in pages and comments only between back quotes. Says where two names would fall
together, and then writes nothing.
"""

import collections
import os
import re
import sys

TOP = os.path.dirname(os.path.dirname(os.path.abspath(__file__)))
WORD = re.compile(r"[^\s(){}\[\],;.:\"«»`/|]+")
DECLARED = re.compile(r"(?m)^\s*(?:(?:pub|abbrev|unfoldable|opaque)\s+)*(data|record|module)?\s*([^\s:(){},.;\"]+)\s*(?:[({][^\n]*?[)}]\s*)*:(?=\s)")
USE = re.compile(r"(?ms)^(?:pub\s+)?use\s+([^\n{]*)(?:\{([^}]*)\})?")
# What a proof of a function takes from Rattle: these names go with the proof's form, which is turned later.
MADE = re.compile(r"^(invariant-|decreases-|loop-|returns-|μ-|\+)|-spec$|-requires$")
# The lines of a kind and the kinds would have one name each.
APART = {name: re.sub("([A-Z])", lambda m: "_" + m[1].lower(), name) + "_of" for name in ("atLine", "nextLine", "wordLine", "recordLine", "runLine", "treeLine", "toTreeLine")}
# Lemmas that port.py turned to a name that a definition has now.
APART |= {name: name.replace("-", "_") + "_lem" for name in ("at_position", "some_left", "no_key", "laid_from", "at-position", "some-left", "no-key", "laid-from")}
APART |= {name: name.replace("-", "_") + "_lem" for name in ("top-of", "up-to", "in-row", "row-of", "number-of", "exponents-at", "low-bit")}
# The library's, and a lemma of one crate.
BOTH = {"take-add": "take_add"}


def spelled(name):
    """The name in snake case: each dash and each capital behind a small letter begins a word."""
    return re.sub(r"([a-z])([A-Z])", lambda m: m[1] + "_" + m[2].lower(), name).replace("-", "_").replace("get_d_", "get_or_")


def is_old(name):
    return name[:1].islower() and ("-" in name or re.search(r"[a-z][A-Z]", name) is not None) and not MADE.search(name)


def files(folder, *endings):
    for at, folders, names in os.walk(os.path.join(TOP, folder)):
        folders[:] = sorted(f for f in folders if f not in ("out", "target"))
        for name in sorted(names):
            if name.endswith(endings):
                yield os.path.join(at, name)


def read(path):
    with open(path, encoding="utf-8") as file:
        return file.read()


def write(path, old, new):
    if new != old:
        with open(path, "w", encoding="utf-8") as file:
            file.write(new)


def bare(text):
    """The text of an .antt file without comments."""
    return re.sub(r"(?m)(?<!\S)--(?= |$).*$", "", text)


def of_library(text, own):
    """The names that a file takes from the library."""
    found = set()
    for path, names in USE.findall(text):
        crate = re.match(r"Rattle\.(\w+)", path)
        if not (crate and crate[1] in own):
            found.update(re.findall(r"[^\s,{}]+", names))
    return found


def turned(text, names, kept=()):
    """The text with the names turned. Behind a dot stands a field, which is no lemma."""

    def word(m):
        name = m[0]
        if name not in names or name in kept:
            return name
        if text[: m.start()].endswith("."):
            return spelled(name) if is_old(name) else name
        return names[name]

    return WORD.sub(word, text)


def in_quotes(text, names):
    """Turns what stands between two back quotes on a line."""
    return re.sub(r"`[^`\n]+`", lambda m: turned(m[0], names), text)


def turned_antt(text, names, kept):
    lines = []
    for line in text.split("\n"):
        at = re.search(r"(?<!\S)--(?= |$)", line)
        code, said = (line[: at.start()], line[at.start() :]) if at else (line, "")
        lines.append(turned(code, names, kept) + in_quotes(said, names))
    return "\n".join(lines)


def turned_rt(text, names):
    """Comments are turned between back quotes, strings are not; in code only what contracts name has a dash or a capital in the middle."""
    names = {old: new for old, new in names.items() if is_old(old)}
    out, last = [], 0
    for m in re.finditer(r"//[^\n]*|b?\"(?:\\.|[^\"\\])*\"|b?'(?:\\.|[^'\\\n])'", text):
        out += [turned(text[last : m.start()], names), in_quotes(m[0], names) if m[0].startswith("//") else m[0]]
        last = m.end()
    return "".join(out) + turned(text[last:], names)


def turned_edit(text, names, antt):
    """An edit: what it replaces, and by what. port.py turned no edit, so dashes of names that it turned go too."""
    lines = text.split("\n")
    for at, line in enumerate(lines):
        if line.startswith("file: "):
            antt = line.endswith(".antt")
        elif line.startswith(("old: ", "new: ")):
            key, rest = line[:5], line[5:]
            lines[at] = key + (turned(rest, names) if antt else turned_rt(rest, names))
        elif line.startswith("#"):
            lines[at] = in_quotes(line, names)
    return "\n".join(lines)


def main():
    own = set(os.listdir(os.path.join(TOP, "crates")))
    texts = {path: read(path) for path in files("crates", ".antt", ".rt")}
    taken = {path: of_library(bare(text), own) for path, text in texts.items() if path.endswith(".antt")}
    library = set().union(*taken.values())
    names, declared = dict(APART) | BOTH, set()
    for path, text in texts.items():
        if path.endswith(".antt"):
            text = bare(text)
            declared.update(name for kind, name in DECLARED.findall(text) if kind != "module")
            is_proof = re.search(r"/proofs/.*/", path[len(TOP) :]) is not None
            for m in WORD.finditer(text):
                name = m[0]
                if is_old(name) and name not in library and name not in names and text[m.start() - 1 : m.start()] != "." and (name in declared or not is_proof):
                    names[name] = spelled(name)
    goes = collections.defaultdict(set)
    for old, new in names.items():
        goes[new].add(old)
    for new, olds in goes.items():
        if len(olds) == 2 and not new.endswith("_lem"):
            lemma = [old for old in olds if "-" in old]
            if len(lemma) == 1:
                names[lemma[0]] = new + "_lem"
    faults, goes = [], collections.defaultdict(set)
    for old, new in names.items():
        goes[new].add(old.replace("-", "_") if old in APART else old)
    faults += [f"{new}: {', '.join(sorted(olds))} fall together" for new, olds in goes.items() if len(olds) > 1]
    for path, text in texts.items():
        if path.endswith(".antt"):
            words = {m[0] for m in WORD.finditer(bare(text)) if bare(text)[m.start() - 1 : m.start()] != "."}
            now = [names[word] if word in names and word not in taken[path] else word for word in words]
            faults += [f"{os.path.relpath(path, TOP)}: two names are now {name}" for name, times in collections.Counter(now).items() if times > 1]
    if faults:
        print("\n".join(faults))
        if "--anyway" not in sys.argv:
            return 1
    for path, text in texts.items():
        write(path, text, turned_antt(text, names, taken[path]) if path.endswith(".antt") else turned_rt(text, names))
    # In pages and edits the names that port.py turned still have dashes and capitals.
    now = {name for path in files("crates", ".antt") for kind, name in DECLARED.findall(bare(read(path)))}
    pages = [*files("docs", ".md"), os.path.join(TOP, "README.md")]
    said = {word for path in [*files("crates", ".edit"), *pages] for word in WORD.findall(read(path))}
    more = {word: spelled(word) for word in said if is_old(word) and word not in names and spelled(word) in now and word not in library}
    for path in files("crates", ".edit"):
        write(path, read(path), turned_edit(read(path), names | more, False))
    for path in pages:
        write(path, read(path), in_quotes(read(path), {old: new for old, new in (names | more).items() if is_old(old)}))
    print(f"{len(names)} names turned, {len(more)} more in edits and pages")
    return 0


if __name__ == "__main__":
    raise SystemExit(main())
