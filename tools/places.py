#!/usr/bin/env python3
"""Lists the lines of crates/*/src that may still have an older form, by the points of docs/DESIGN-PASS.md.

Usage: tools/places.py [FOLDER] [--count]    FOLDER is a checkout, this one if none is named; --count prints the counts alone.
A line listed is a place to look at, not a verdict.
"""

import re
import sys
from collections import Counter
from pathlib import Path

# By point: a name for what is looked for, and the pattern of a line that has it.
LINES = [
    (1, "answers a bare tuple", r"^(?!\s*//).*-> (Result<|Option<)*\((?!\))"),
    (1, "0 or a flag for none", r"///.*(and|;|,) 0 if|///.*(and|;|,) 0 for none"),
    (1, "a number or a flag for a kind or sort", r"^(?!\s*//).*\b(codes|number|kind): (bool|u8|u64)\b"),
    (3, "a counted loop", r"\bfor [a-z_]+ in [^{]*\.\.(?!\.)|\bwhile\b(?! let)|\+= 1;"),
    (3, "an index beside an item", r"\.enumerate\(\)"),
    (4, "a conversion or printing by hand", r"^\s*(pub(\(crate\))? )?(const )?fn (to_|from_|as_|into_|eq\b|cmp\b|fmt\b|clone\b|reason\b|told\b|pack\b|unpack\b|word\(self)"),
    (4, "a match that turns an error into another", r"Err\(_\) =>|Err\(refusal\) => Err|let Ok\([a-z]+\) = .*try_from"),
    (6, "a fixed buffer in a struct or a signature", r"^(?!.*let ).*: \[[a-z0-9]+; [0-9A-Z_]+\]"),
    (7, "a boxed or dynamic step", r"\bdyn |Box<|: fn\("),
]


def sources(folder):
    for path in sorted(Path(folder).glob("crates/*/src/**/*.rt")):
        yield path, path.read_text(encoding="utf-8").split("\n")


def repeated(folder, pattern):
    """The clauses or constants that stand three times or more, and how often."""
    found = Counter()
    for _, lines in sources(folder):
        for line in lines:
            match = re.search(pattern, line)
            if match:
                found[match.group("what")] += 1
    return found


def main():
    arguments = [a for a in sys.argv[1:] if a != "--count"]
    folder = arguments[0] if arguments else "."
    alone = "--count" in sys.argv
    for point, name, pattern in LINES:
        places = [(p, n, t) for p, ls in sources(folder) for n, t in enumerate(ls, 1) if re.search(pattern, t)]
        print(f"point {point}: {name}: {len(places)}")
        if not alone:
            for path, n, text in places:
                print(f"    {path}:{n}: {text.strip()[:140]}")
    for point, name, pattern, least in [
        (2, "a constant that is written more than once", r"const (?P<what>(?!COUNT|TYPE)[A-Z]+): ", 2),
        (2, "a function's name that two crates or files define", r"^\s*(pub(\(crate\))? )?fn (?P<what>[a-z_]+)[(<]", 2),
        (5, "a requires that stands three times", r"(?P<what>requires [a-z_]* ?\{.*\})", 3),
        (5, "an ensures that stands three times", r"ensures [a-z_]* ?(?P<what>\{.*\})", 3),
    ]:
        often = {what: n for what, n in repeated(folder, pattern).items() if n >= least}
        print(f"point {point}: {name}: {len(often)} ({sum(often.values())} lines)")
        if not alone:
            for what, n in sorted(often.items(), key=lambda pair: -pair[1]):
                print(f"    {n} times {what[:140]}")


main()
