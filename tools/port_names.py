#!/usr/bin/env python3
"""Brings this repository's own definitions and lemmas to today's spelling: snake case for values, camel case for facts.

usage: python3 tools/port_names.py        once, at the top, on the tree that port.py left

What it renames is what the tree's own .antt files declare: names with a dash or an inner capital. A name of the
library, of the source (src/), of a generated goal, a string or a file's own words stays. Where two names would fall
together, the definition takes the plain one and the lemma gets `_lem`. It prints each name, old and new.
"""
import os
import re
import subprocess
import sys

DECLARES = re.compile(r"(?m)^\s*(?:abbrev |unfoldable |pub |private )*([^\s(){}\[\],;:\"]+)(?: \{[^}]*\})* :(?!=)")
USES = re.compile(r"(?m)^\s*(?:pub |ghost )*use ([\w.+·#-]+?)\.\{(.*?)\}")
TOKEN = re.compile(r"[^\s(){}\[\],;.\"`]+")
STRING = re.compile(r'"(?:[^"\\]|\\.)*"')
FACTS = {"noFifty": "NoFifty", "Left-alone": "LeftAlone", "Not-sixty": "NotSixty"}
MODULES = {("demands", "specs", "Contracts"): "CallContracts"}


def files(suffixes):
    for folder, dirs, names in os.walk("crates"):
        dirs[:] = sorted(d for d in dirs if d != "out")
        for n in sorted(names):
            if n.endswith(suffixes):
                yield os.path.join(folder, n)


def read(p):
    with open(p, encoding="utf-8") as f:
        return f.read()


def of_function(p):
    """A file of one function's proof: crates/NAME/proofs/F/..."""
    return len(p.split(os.sep)) > 4 and p.split(os.sep)[2] == "proofs"


def snake(n):
    if n in FACTS:
        return FACTS[n]
    n = re.sub(r"(?<=[\w'])-(?=[\w'])", "_", n)
    return re.sub(r"(?<=[a-z])(\d*[A-Z])", lambda m: "_" + m.group(1).lower(), n)


def names():
    """Each name to be turned, with what it becomes."""
    own = set(os.listdir("crates"))
    declared, lent = {}, set()
    for p in files((".antt", ".rt")):
        t = read(p)
        for path, inner in USES.findall(t):
            m = re.match(r"Rattle\.(\w+)\.", path)
            if not (m and m.group(1) in own):
                lent |= {n.strip().split(" as ")[0] for n in inner.split(",")}
        if p.endswith(".antt"):
            for n in DECLARES.findall(t):
                declared.setdefault(n, []).append(p)
    turn = {}
    old = [n for n in declared if re.search(r"[\w']-[\w']", n) or re.match(r"[a-z]\w*[A-Z]", n)]
    old = [n for n in old if n not in lent and not all(of_function(p) for p in declared[n])]
    for n in sorted(old, key=lambda n: ("-" in n, n)):
        s = snake(n)
        if s in turn.values() or s in lent or s in declared and s != n and "-" in n:
            s += "_lem"
        elif s in declared and s != n:
            # a lemma has the plain name already: it makes room
            turn[s] = s + "_lem"
        if s in turn.values() or s in declared and s not in turn:
            sys.exit(f"{n} and another would both be {s}")
        turn[n] = s
    return turn


def turned(text, turn):
    return TOKEN.sub(lambda m: turn.get(m.group(0), m.group(0)), text)


def outside_strings(text, turn):
    out, at = [], 0
    for m in STRING.finditer(text):
        out += [turned(text[at:m.start()], turn), m.group(0)]
        at = m.end()
    return "".join(out + [turned(text[at:], turn)])


def ticked(text, turn):
    """In a page or a comment only what stands between backticks."""
    return re.sub(r"`[^`\n]*`", lambda m: turned(m.group(0), turn), text)


def by_line(text, turn, mark):
    lines = []
    for line in text.split("\n"):
        at = line.find(mark) if line.lstrip().startswith(mark) or f" {mark} " in line else -1
        code, comment = (line, "") if at < 0 else (line[:at], line[at:])
        lines.append(outside_strings(code, turn) + ticked(comment, turn))
    return "\n".join(lines)


def main():
    turn = names()
    modules = []
    for (crate, part, n), new in MODULES.items():
        subprocess.run(["git", "mv", f"crates/{crate}/{part}/{n}.antt", f"crates/{crate}/{part}/{new}.antt"], check=True)
        modules.append((re.compile(rf"\bRattle\.{crate}\.{part}\.{n}\b"), f"Rattle.{crate}.{part}.{new}"))
        lib = f"crates/{crate}/{part}/Lib.antt"
        text = read(lib)
        with open(lib, "w", encoding="utf-8") as f:
            f.write(re.sub(rf"(?m)^pub mod {n}$", f"pub mod {new}", text))
    pages = [os.path.join(d, n) for d, _, ns in os.walk("docs") for n in ns if n.endswith(".md")] + ["README.md"]
    for p in [*files((".antt", ".rt", ".edit")), *pages]:
        text = read(p)
        if p.endswith(".md"):
            new = ticked(text, turn)
        else:
            new = by_line(text, turn, "--" if p.endswith(".antt") else "//")
        for pattern, path in modules:
            new = pattern.sub(path, new)
        if new != text:
            with open(p, "w", encoding="utf-8") as f:
                f.write(new)
    for n in sorted(turn):
        print(f"{n} -> {turn[n]}")


main()
