#!/usr/bin/env python3
"""Counts the places in crates/*/src that docs/DESIGN-PASS.md speaks of, point by point.

usage: python3 tools/places.py [-v] [-c CRATE]      -v prints each place
A place is what the pattern finds, whether it is to change or stays: the page says which. hitchbarley_c, whose code is
the C interface alone, is counted with the rest.
"""
import collections
import pathlib
import re
import sys

NUMBER = r"(?:1[0-4]|2[0-4]|3[0-9]|4[0-3]|5[0-6]|59|6[0-4]|6[78])"
FN = re.compile(r"^( *)((?:pub(?:\(crate\))? )?(?:const )?fn (\w+).*?)\n\1\}\n", re.S | re.M)
ITEM = re.compile(r"^ *(?:pub )?(enum|struct) (\w+)[^{;]*\{\n(.*?)^ *\}", re.S | re.M)


def head(text):
    """A function's text down to its body, and the body."""
    at = re.search(r"^ *\{$|\) *(?:-> [^{\n]*)?\{$", text, re.M)
    return (text, "") if at is None else (text[: at.start()], text[at.start() :])


def code(text):
    return "\n".join(line.split("//")[0].rstrip() for line in text.split("\n"))


def found(folder):
    for path in sorted(folder.glob("src/**/*.rt")):
        text = path.read_text()
        plain = code(text) + "\n"
        tell = lambda at: f"{path}:{plain.count(chr(10), 0, at) + 1}"
        for m in ITEM.finditer(plain):
            kind, name, body = m.groups()
            if kind == "enum" and re.search(r"^ *(Refused|Bad|Broken|Missing|Nothing)\b", body, re.M):
                yield "1a enums with a refusal or nothing among their cases", f"{tell(m.start())} {name}"
            if kind == "struct":
                for f in re.finditer(r"^ *(?:pub )?(\w+): (bool|u8),", body, re.M):
                    if f.group(2) == "bool":
                        yield "1b flags in structs", f"{tell(m.start())} {name}.{f.group(1)}"
                    elif f.group(1) in ("refused", "number") and re.match(r"(Fed|Fell|Ran|Stilled|Forgot|Ate|Hushed|Freed|Went|Lap|Lifted|Silence|Reading|Part|Tail|Quiet)$", name):
                        yield "1c refusal numbers in structs", f"{tell(m.start())} {name}.{f.group(1)}"
                    elif f.group(1) in ("kind", "sort"):
                        yield "1e kinds as numbers", f"{tell(m.start())} {name}.{f.group(1)}"
                if re.search(r": \[\w+; \w+\]", body) and re.search(r"^ *(?:pub )?(len|count|depth|at|next|n|bars): (usize|u8|u16)", body, re.M):
                    yield "6a arrays with a length or a place beside", f"{tell(m.start())} {name}"
        for m in FN.finditer(plain):
            top, body = head(m.group(2))
            name = m.group(3)
            if re.search(r"-> u8\b", top) and re.search(rf"^ *(?:return )?{NUMBER};?$|=> {NUMBER},|\.number\(\)|octets::fault\(", body, re.M):
                yield "1d functions that answer a refusal's number", f"{tell(m.start())} {name}"
            for p in re.finditer(r"\b(kind|sort): u8", top):
                yield "1e kinds as numbers", f"{tell(m.start())} {name}({p.group(1)})"
            if re.match(r"(same_|one_address|alike|compare)", name):
                yield "4a equality and order by hand", f"{tell(m.start())} {name}"
            if re.search(r"\bout: &mut \[u8\],\s*at: usize", top):
                yield "5b an area and a place that travel together", f"{tell(m.start())} {name}"
            if re.search(r"&(?:mut )?\[u(?:8|32); \d+\]", top) and re.search(r"\b(n|count|got|depth): usize", top):
                yield "6a arrays with a length or a place beside", f"{tell(m.start())} {name}"
        for m in re.finditer(r"^ *(?:'\w+: )?(?:let \w+ = )?(while|loop)\b.*\{$", plain, re.M):
            yield "3 loops that count by hand", f"{tell(m.start())} {m.group(0).strip()}"
        for m in re.finditer(r"^.*(?:/ (?:256|65536|16777216|4294967296)\b.*as u8|% 256\) as u8|\* 256 \+ |\b48 \+|\b55 \+).*$", plain, re.M):
            yield "4b octets and digits turned by hand", f"{tell(m.start())} {m.group(0).strip()}"
        for m in re.finditer(r"octets::wide\(|show::word\(", plain):
            yield "4c widenings by a function of ours", tell(m.start())
        for m in re.finditer(r"\bfn\(", plain):
            yield "7 function pointers, tables of functions", tell(m.start())


def facts(folder):
    """Clauses of `requires` that three or more functions of a crate repeat."""
    seen = collections.Counter()
    for path in sorted(folder.glob("src/**/*.rt")):
        for m in re.finditer(r"^ *requires (?:\w+ )?\{ (.*) \}$", path.read_text(), re.M):
            for fact in re.split(r" × ", m.group(1)):
                fact = fact.strip()
                while fact.startswith("(") and fact.endswith(")"):
                    fact = fact[1:-1]
                seen[fact] += 1
    for fact, n in seen.most_common():
        if n > 2:
            for _ in range(n):
                yield "5a facts in three or more contracts of a crate", f"{folder}: {fact}"


def twins(folder):
    """Functions of a crate whose bodies, of three lines or more, differ in numbers, types and names of types alone."""
    shape = collections.defaultdict(list)
    for path in sorted(folder.glob("src/**/*.rt")):
        plain = code(path.read_text()) + "\n"
        for m in FN.finditer(plain):
            body = head(m.group(2))[1]
            if body.count("\n") < 4:
                continue
            body = re.sub(r"\b[ui](?:8|16|32|64|size)\b", "T", body)
            body = re.sub(r"\b[A-Z]\w*\b", "C", body)
            body = re.sub(r"\b(?:0x[0-9A-Fa-f]+|\d+)\b|b'.'", "N", body)
            shape[re.sub(r"\s+", " ", body)].append(f"{path}: {m.group(3)}")
    for at in shape.values():
        if len(at) > 1:
            for place in at:
                yield "2 functions that differ in a type, a number or a constant", place + " ~ " + " ~ ".join(x for x in at if x != place)


def main():
    loud = "-v" in sys.argv
    only = sys.argv[sys.argv.index("-c") + 1] if "-c" in sys.argv else None
    top = pathlib.Path("crates")
    count = collections.Counter()
    for folder in sorted(top.iterdir()):
        if only in (None, folder.name):
            for source in (found, facts, twins):
                for point, place in source(folder):
                    count[point] += 1
                    if loud:
                        print(f"{point}: {place}")
    for point in sorted(count):
        print(f"{count[point]:4}  {point}")


main()
