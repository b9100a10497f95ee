#!/usr/bin/env python3
"""Makes the table of the planted bugs that are kept as must-fail edits anew, in docs/PLANTED.md.

Usage: tools/planted.py [--check]

The table stands between two marked lines; what is written around it stays. With --check nothing is written, and the status is 1 where
the page is not what would be written.
"""

import re
import sys
from pathlib import Path

TOP = Path(__file__).resolve().parent.parent
PAGE = TOP / "docs" / "PLANTED.md"
BEGIN = "<!-- kept: made by tools/planted.py -->"
END = "<!-- end of what tools/planted.py made -->"
CRATE = re.compile(r"^([a-z0-9_]+)(?: staticlib)?:")
FUNCTION = re.compile(r"\bfn (\w+)")
IMPL = re.compile(r"^impl\b(?:<.*?>)? (?:(?P<trait>\w+)(?:<.*?>)? for )?(?:&(?:'\w+ )?(?:mut )?)?(?P<type>\w+)")
STRUCT = re.compile(r"^(?:pub(?:\(crate\))? )?(?:struct|enum|const) (\w+)")


def crates():
    """The crates in the order of crates.txt, lowest first."""
    for line in (TOP / "crates.txt").read_text().splitlines():
        found = CRATE.match(line)
        if found:
            yield found[1]


def edit_of(path):
    """The file that an edit changes, and its pairs of an old and a new text."""
    file, pairs = "", []
    for line in path.read_text().splitlines():
        key, _, text = line.partition(":")
        text = text.removeprefix(" ")
        if key == "file":
            file = text
        elif key == "old":
            pairs.append([text, ""])
        elif key == "new":
            pairs[-1][1] = text
    return file, pairs


def place_of(source, old):
    """The function in which a text stands, with the type whose it is; the item where it stands in none."""
    owner, place = "", ""
    before = source[: source.index(old) + len(old)]
    for line in before.splitlines():
        impl, struct, function = IMPL.match(line), STRUCT.match(line), FUNCTION.search(line)
        if impl:
            owner = impl["type"] + "::"
            place = impl["type"]
        elif struct:
            place = struct[1]
        elif line.startswith("}"):
            owner = ""
        elif function and not line.lstrip().startswith("//"):
            place = owner + function[1]
    return place


def code(text):
    """A piece of code in a cell."""
    text = text.strip().replace("|", "\\|")
    return f"`` {text} ``" if "`" in text else f"`{text}`" if text else "(nothing)"


def rows():
    """A row for each edit, crate by crate, each crate's by the places in its sources."""
    for crate in crates():
        folder = TOP / "crates" / crate
        found = []
        for path in (folder / "must-fail").glob("*.edit"):
            file, pairs = edit_of(path)
            source = (folder / file).read_text()
            at = source.find(pairs[0][0])
            if at < 0:
                sys.exit(f"planted.py: what {path} replaces is not in {file}")
            old = "<br>".join(code(pair[0]) for pair in pairs)
            new = "<br>".join(code(pair[1]) for pair in pairs)
            name = path.stem.replace("_", " ")
            cells = [f"`{crate}`", f"`{place_of(source, pairs[0][0])}`", f"`{file}`", name, old, new, "refused"]
            found.append((file, at, path.stem, cells))
        for _, _, _, cells in sorted(found):
            yield "| " + " | ".join(cells) + " |"


def main():
    page = PAGE.read_text()
    table = list(rows())
    head = [
        f"{len(table)} edits.",
        "",
        "| crate | function | file | what is wrong | old | new | outcome |",
        "|---|---|---|---|---|---|---|",
    ]
    before, _, rest = page.partition(BEGIN + "\n")
    _, _, after = rest.partition(END + "\n")
    anew = before + BEGIN + "\n" + "\n".join(head + table) + "\n" + END + "\n" + after
    if "--check" in sys.argv[1:]:
        sys.exit(0 if anew == page else "planted.py: docs/PLANTED.md is not up to date")
    PAGE.write_text(anew)


if __name__ == "__main__":
    main()
