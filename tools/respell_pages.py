#!/usr/bin/env python3
"""Brings the names of definitions and lemmas in the pages to the spelling that they have in crates/.

usage: tools/respell_pages.py          rewrites README.md and docs/, and says which names it left
       tools/respell_pages.py --left   writes nothing, and prints the old names that still stand as code

Code is what stands in backticks or is indented by four blanks. A name of tools/respelled.txt gets the name beside it there. Another
in the old spelling gets the new one by the same rule, if crates/ declares that today. Names of stored sheets keep their dashes.
"""
import os
import re
import sys

from respell import OLD_LEMMAS, by_rule, read

HERE = os.path.dirname(os.path.abspath(__file__))
NAME = re.compile(r"(?<![\w./-])[A-Za-z][\w'′]*(?:-[\w'′]+)*(?![\w-]|\.frcs)|(?<=/)[A-Za-z]\w*(?:-\w+)+(?![\w-]|\.frcs)")
CODE = re.compile(r"`[^`\n]+`")
# Pages whose code is not of crates/: names of stored sheets; what the port itself moved.
NOT = ("docs/STORED-SHEETS.md", "docs/PORT.md")


def pages():
    yield "README.md"
    for folder, _, names in sorted(os.walk("docs")):
        for name in sorted(names):
            path = os.path.join(folder, name)
            if name.endswith(".md") and path not in NOT:
                yield path


def declared():
    """The names that crates/ declares, in specs/ and proofs/ and in src/."""
    found = set()
    for folder, dirs, names in os.walk("crates"):
        dirs[:] = [d for d in dirs if d != "out"]
        for name in names:
            if name.endswith(".antt"):
                found.update(re.findall(r"(?m)^ *(?:(?:pub|abbrev|unfoldable|mutual|opaque|data|record) +)*([^\s(){}.;,@:]+)(?: *\{[^{}\n]*\})* *:", read(os.path.join(folder, name))))
            elif name.endswith(".rt"):
                found.update(re.findall(r"\b(?:fn|struct|enum|trait|ghost|const|mod) (\w+)", read(os.path.join(folder, name))))
    return found


def main(argv):
    names = dict(line.split() for line in read(os.path.join(HERE, "respelled.txt")).splitlines())
    names.update({old.replace("_", "-"): old + "_lem" for old in OLD_LEMMAS})
    today, left = declared(), {}

    def of_name(m):
        old = m[0]
        new = names.get(old, by_rule(old))
        if new == old or old[0].isupper():
            return old
        if new in today:
            return new
        left.setdefault(old, where)
        return old

    for where in pages():
        lines = read(where).split("\n")
        for i, line in enumerate(lines):
            if line.startswith("    "):
                lines[i] = NAME.sub(of_name, line)
            else:
                lines[i] = CODE.sub(lambda m: NAME.sub(of_name, m[0]).replace("`..-", "`.._"), line)
        if argv != ["--left"]:
            with open(where, "w", encoding="utf-8") as page:
                page.write("\n".join(lines))
    for old, where in sorted(left.items()):
        print(f"left: {old}, first in {where}")
    return 0


if __name__ == "__main__":
    raise SystemExit(main(sys.argv[1:]))
