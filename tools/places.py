#!/usr/bin/env python3
"""Lists the places that docs/DESIGN-PASS.md counts, a heading and a count for each kind.

    python3 tools/places.py [COMMIT]      the files of the working tree, or of a commit

Every list is of places to look at: what stands in it is judged by reading, and the page says how."""
import difflib, re, subprocess, sys
from collections import defaultdict

COMMIT = sys.argv[1] if len(sys.argv) > 1 else None


def git(*words):
    return subprocess.run(["git", *words], capture_output=True, text=True, check=True).stdout


def files(pattern):
    names = git("ls-tree", "-r", "--name-only", COMMIT) if COMMIT else git("ls-files", "-co", "--exclude-standard")
    return sorted(n for n in names.splitlines() if re.fullmatch(pattern, n))


def text_of(name):
    if COMMIT:
        return git("show", f"{COMMIT}:{name}")
    try:
        return open(name, encoding="utf-8").read()
    except FileNotFoundError:
        return ""


SOURCES = {n: text_of(n) for n in files(r"crates/\w+/src/.*\.rt")}


def matches(pattern):
    for name, text in SOURCES.items():
        for number, line in enumerate(text.splitlines(), 1):
            if not line.lstrip().startswith("//") and re.search(pattern, line):
                yield f"{name}:{number}: {line.strip()}"


def show(title, rows):
    rows = list(rows)
    print(f"== {title}: {len(rows)}")
    for row in rows:
        print("  ", row)


class Function:
    """A function's name, its parameters and its body as tokens."""

    def __init__(self, place, name, head, body):
        self.place, self.name, self.head = place, name, head
        plain = re.sub(r"//.*", "", body)
        words = re.findall(r"'[^']*'|\"[^\"]*\"|[A-Za-z_]\w*|\d\w*|[^\sA-Za-z_\d]", plain)
        self.shape = ["N" if re.match(r"\d|'|\"", w) else "I" if re.match(r"[A-Za-z_]", w) and w not in KEYWORDS else w for w in words]
        self.parameters = re.findall(r"(\w+): ([^,()]+(?:\([^)]*\))?)", head[head.index("(") + 1:])


KEYWORDS = {"if", "else", "match", "for", "while", "let", "return", "in", "as", "Some", "None", "Ok", "Err", "mut"}


def functions():
    for name, text in SOURCES.items():
        for found in re.finditer(r"^([ ]*)(?:pub(?:\(crate\))? )?fn (\w+)", text, re.M):
            indent = found.group(1)
            opening = re.compile(rf"^{indent}\{{$|\{{$|\{{\}}$", re.M).search(text, found.end())
            if not opening:
                continue
            close = re.compile(rf"^{indent}\}}", re.M).search(text, opening.end())
            head = text[found.start():opening.start()].split("\n" + indent + "    requires")[0].split("\n" + indent + "    ensures")[0]
            body = text[opening.end():close.start() if close else opening.end()]
            line = text.count("\n", 0, found.start()) + 1
            yield Function(f"{name}:{line}", found.group(2), head, body)


def twins(all_functions, least=25, alike=0.85):
    for i, f in enumerate(all_functions):
        for g in all_functions[i + 1:]:
            if min(len(f.shape), len(g.shape)) < least:
                continue
            if difflib.SequenceMatcher(None, f.shape, g.shape, False).ratio() >= alike:
                yield f"{f.place} {f.name} ~ {g.place} {g.name}"


def alike_types():
    shapes = defaultdict(list)
    for name, text in SOURCES.items():
        for found in re.finditer(r"struct (\w+)[^{;]*\{\n(.*?)\n\s*\}", text, re.S):
            fields = re.findall(r"(\w+): ([^,\n]+)", re.sub(r"//.*|ghost .*", "", found.group(2)))
            shapes[tuple(fields)].append(f"{name} {found.group(1)}")
    return [" ~ ".join(names) for fields, names in shapes.items() if len(names) > 1 and fields]


def repeated_clauses(least=3):
    counts = defaultdict(list)
    for name, text in SOURCES.items():
        for found in re.finditer(r"requires(?: \w+)? \{ (.*) \}$", text, re.M):
            for part in found.group(1).split(" × "):
                counts[part.strip("() ")].append(name)
    return [f"{len(names)} times: {clause}" for clause, names in sorted(counts.items(), key=lambda p: -len(p[1])) if len(names) >= least]


def travelling(all_functions, least=3):
    pairs = defaultdict(list)
    for f in all_functions:
        crate = f.place.split("/")[1]
        for i, a in enumerate(f.parameters):
            for b in f.parameters[i + 1:]:
                pairs[(crate, *sorted([f"{a[0]}: {a[1].strip()}", f"{b[0]}: {b[1].strip()}"]))].append(f.name)
    return [f"{crate}: {a} with {b}: {', '.join(names)}" for (crate, a, b), names in pairs.items() if len(names) >= least]


def main():
    every = list(functions())
    show("1 enums", matches(r"^\s*(pub(\(crate\))? )?enum "))
    show("1 flags among fields", matches(r"^\s+(pub )?\w+: bool,"))
    show("1 numbers for kinds, flags and refusals", matches(r"(kind|flag|layer|number|sort)\w*(\(.*\) -> u(8|16|32)|: u(8|16|32))"))
    show("2 functions of like shape", twins(every))
    show("2 types of like fields", alike_types())
    show("3 loops", matches(r"^\s*(for|while|loop)\b"))
    show("3 bounds tested by hand", matches(r"if .*(<|<=|>|>=) .*len\(\)|\.len\(\) (<|<=|>|>=) "))
    show("4 printing", matches(r"impl.* fmt::Display for|-> &.static str"))
    show("4 conversions", matches(r"impl.* (From|TryFrom|FromStr)(<.*>)? for|^\s*(pub(\(crate\))? )?fn (\w+_of|from_\w+|to_\w+)\b|^\s*(pub(\(crate\))? )?fn (unary|binary|first_child|hex_digit|digit|node)\("))
    show("4 one case passed on by hand", (f"{name}:{text.count(chr(10), 0, m.start()) + 1}: {' '.join(m.group(0).split())}" for name, text in SOURCES.items() for m in re.finditer(r"else \{\s*return None;\s*\}|Ok\((\w+)\) => Ok\(\1\),|Ok\(_\) => true,|None => None,|Ok\((\w+)\) => \2,", text)))
    show("4 comparing, ordering and copying", matches(r"impl.* (PartialEq|Eq|PartialOrd|Ord|Clone|Copy|Hash)\b.* for"))
    show("5 facts required three times or more", repeated_clauses())
    show("5 parameters that travel together", travelling(every))
    show("6 lengths among fields", matches(r"^\s+(pub )?(len|count|used|size)\w*: (usize|u32),"))
    show("6 several buffers in a row", matches(r"^\s+(pub )?\w+: (Vec<|\[|&'a mut \[)"))
    show("7 steps chosen by a value", matches(r"enum (Call|CaseCall|Command)\b|\bdyn\b|: fn\(|Fn(Mut|Once)?\("))
    for title, pattern in [("8 answers", r"^pub [\w-]+ : goal\."), ("8 lemmas", r"^(pub )?[\w'-]+ : ")]:
        kind = r"crates/\w+/proofs/.*/Answers\.antt" if "answers" in title else r"crates/\w+/proofs/\w+\.antt"
        counts = defaultdict(int)
        for name in files(kind):
            counts[name.split("/")[1]] += len(re.findall(pattern, text_of(name), re.M))
        print(f"== {title}: {sum(counts.values())} ({', '.join(f'{c} {n}' for c, n in counts.items())})")


main()
