#!/usr/bin/env python3
"""Brings the repository's own names in specs/, proofs/ and clauses to one spelling: words in snake case, types in camel case.

usage: python3 tools/respell.py        at the top of the repository, once

A name is one of ours where a file of specs/ or a file of lemmas (proofs/*.antt) declares it: a definition, a field, a
constructor, or a bound variable. What the library declares keeps its name, and so does every name of src/, since a
dash cannot stand in those. Comments and strings are left as they are. Two names of one file that would become one are
reported, and nothing is written then.
"""

import glob
import re
import sys

DASHED = r"[A-Za-z_][\w']*(?:-[\w']+)+"
OURS = re.compile(r"^use (?:Rattle\.(?!std\.|core\.)\w+\.)")
COMMENT = {".antt": "--", ".rt": "//"}


def files():
    for kind in ("specs", "proofs", "src"):
        for ending in ("antt", "rt"):
            yield from sorted(glob.glob(f"crates/*/{kind}/**/*.{ending}", recursive=True))


def code_of(line, mark):
    """The part of a line before a comment."""
    at = 0
    while True:
        at = line.find(mark, at)
        if at < 0:
            return line, ""
        before = line[:at]
        if before.count('"') % 2 == 0 and (at == 0 or before[-1] in " \t"):
            return before, line[at:]
        at += len(mark)


def declared(path):
    """The names with a dash that the file declares."""
    found = set()
    if path.endswith(".rt"):
        return found
    for line in open(path, encoding="utf-8"):
        code, _ = code_of(line.rstrip("\n"), "--")
        if code.startswith("use "):
            continue
        found.update(re.findall(rf"^\s*(?:pub |abbrev |unfoldable |data |record |ruleset )*({DASHED})\s*:", code))
        found.update(re.findall(rf"\b(?:data|record)\s+({DASHED})(?![\w'-])", code))
        for group in re.findall(r"^\s*(?:pub )?([\w' -]+?)\s*:", code):
            found.update(re.findall(DASHED, group))
        found.update(re.findall(rf"\blet\s+({DASHED})\b", code))
        found.update(re.findall(rf"^\s*({DASHED})\s*=", code))
        for group in re.findall(r"[({]([^(){}:]*?)\s*:", code):
            found.update(re.findall(rf"(?<![\w'.-])({DASHED})(?![\w'])", group))
        for group in re.findall(r"λ([^.]*)\.", code):
            found.update(re.findall(rf"(?<![\w'.-])({DASHED})(?![\w'])", group))
    return found


def borrowed(path):
    """The names with a dash that the file takes from the library."""
    found = set()
    for line in open(path, encoding="utf-8"):
        line = line.strip()
        line = line[6:] if line.startswith("ghost use ") else line
        if line.startswith("use ") and not OURS.match(line):
            found.update(re.findall(DASHED, line))
    return found


def respelt(name):
    if name[0].isupper():
        return "".join(p[:1].upper() + p[1:] for p in name.split("-"))
    return name.replace("-", "_")


def main():
    paths = list(files())
    lemmas = [p for p in paths if re.match(r"crates/\w+/(specs|proofs)/\w+\.antt$", p)]
    ours = set().union(*(declared(p) for p in lemmas))
    library = set().union(*(borrowed(p) for p in paths))
    both = ours & library
    ours -= library
    pattern = re.compile(rf"(?<![\w'-])({DASHED})(?![\w'-])")
    new, clash = {}, []
    for path in paths:
        mark = COMMENT[path[path.rindex("."):]]
        lines, before, after = [], set(), {}
        for line in open(path, encoding="utf-8"):
            code, comment = code_of(line, mark)
            parts = re.split(r'("[^"]*")', code)
            for k in range(0, len(parts), 2):
                for name in pattern.findall(parts[k]):
                    if name in ours:
                        after.setdefault(respelt(name), set()).add(name)
                before.update(re.findall(r"(?<![\w'.-])[A-Za-z_][\w']*(?:-[\w']+)*(?![\w'.-])", parts[k]))
                parts[k] = pattern.sub(lambda m: respelt(m[1]) if m[1] in ours else m[1], parts[k])
            lines.append("".join(parts) + comment)
        for name, olds in after.items():
            if len(olds) > 1 or name in before:
                clash.append(f"{path}: {sorted(olds)} and {name}")
        new[path] = "".join(lines).replace("′", "'")
    for name in sorted(both):
        print("kept, since the library has it too:", name)
    for line in clash:
        print("falls together:", line)
    if clash:
        return 1
    for path, text in new.items():
        if text != open(path, encoding="utf-8").read():
            open(path, "w", encoding="utf-8").write(text)
    print(len(ours), "names")
    return 0


if __name__ == "__main__":
    sys.exit(main())
