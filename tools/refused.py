#!/usr/bin/env python3
"""What the compiler has to refuse: each file of refused/ is an edit of a source file, and names the error that the edited
crate must be refused with. An edit is applied to a copy of the repository, and the copy is checked. Ends with 0 where all
are refused so."""

import pathlib
import re
import subprocess
import sys
import tempfile

ROOT = pathlib.Path(__file__).resolve().parent.parent


def read_edit(path):
    """The crate, the file, the error, and the text before and after."""
    head, rest = path.read_text().split("--- old\n", 1)
    old, new = rest.split("--- new\n", 1)
    words = dict(line.split(": ", 1) for line in head.splitlines())
    return words["crate"], words["file"], words["error"], old.removesuffix("\n"), new.removesuffix("\n")


def errors_of(copy, crate):
    """The errors that a check of the crate prints, each with its line."""
    run = subprocess.run(["rt", "check"], cwd=copy / "crates" / crate, capture_output=True, text=True)
    return [line for line in (run.stdout + run.stderr).splitlines() if re.search(r"error\[", line)]


def is_refused(copy, path):
    crate, file, error, old, new = read_edit(path)
    source = copy / "crates" / crate / file
    before = source.read_text()
    if before.count(old) != 1:
        print(f"{path.name}: its text stands in {file} {before.count(old)} times")
        return False
    source.write_text(before.replace(old, new))
    errors = errors_of(copy, crate)
    source.write_text(before)
    refused = len(errors) == 1 and f"error[{error}]" in errors[0]
    print(f"{path.name}: {'refused' if refused else 'NOT refused as it must be'}: {'; '.join(errors) or 'no error'}")
    return refused


def main():
    with tempfile.TemporaryDirectory() as folder:
        copy = pathlib.Path(folder)
        names = subprocess.run(["git", "ls-files", "-z"], cwd=ROOT, capture_output=True, check=True).stdout
        for name in filter(None, names.decode().split("\0")):
            (copy / name).parent.mkdir(parents=True, exist_ok=True)
            (copy / name).write_bytes((ROOT / name).read_bytes())
        edits = sorted((ROOT / "refused").glob("*.txt"))
        refused = [is_refused(copy, path) for path in edits]
    print(f"{sum(refused)} of {len(edits)} edits refused by the compiler")
    return 0 if edits and all(refused) else 1


if __name__ == "__main__":
    sys.exit(main())
