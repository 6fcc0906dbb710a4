#!/usr/bin/env python3
"""Spells the repository's own definitions and lemmas as the library spells its words: types in camel case, all else in snake case.

usage: tools/respell.py          once, at the top, after the port's own script
       tools/respell.py --list   the old and new names, one pair a line, and nothing is written

Labels that the check makes (of goals, steps and loops) stay as they are: they stand in a function's own proof files.
"""
import collections
import os
import re
import sys

WORD = r"[^\s(){}.;,@\"«»:|\\`]+"
TOKEN = re.compile(r"[^\s(){}.;,@\"«»:|\\`]+")
DECLARED = re.compile(
    r"(?m)^[ \t]*(?:(?:pub|abbrev|unfoldable|mutual|open)[ \t]+)*(" + WORD + r")(?:[ \t]*\{[^{}\n]*\})*[ \t]*:[ \t]*(tie\.\S*|\S*)"
)
IMPORTED = re.compile(r"\buse ([^\s;{]+?)\.\{([^}]*)\}")
MADE = re.compile(r"tie\.(Need|invariant|decreases|Inv|Measure|mu)")
# Lemmas that already had underscores and would meet a definition's new name, each with the module that declares it.
OLD_LEMMAS = {
    "few_words": "Rattle.card.proofs.SpanLaws",
    "read_number": "Rattle.demands.proofs.Numbers",
    "all_sound": "Rattle.model.proofs.Rows",
    "says_truth": "Rattle.written.proofs.Passing",
}


def by_rule(name):
    name = name.replace("getD", "get_or")
    words = re.sub(r"(?<=[a-z0-9])[A-Z]", lambda m: "_" + m[0].lower(), name)
    return words.replace("-", "_")


def files():
    for folder, dirs, names in os.walk("crates"):
        dirs[:] = sorted(d for d in dirs if d != "out")
        for n in sorted(names):
            yield os.path.join(folder, n)


def read(path):
    with open(path, encoding="utf-8") as f:
        return f.read()


def declared():
    found = collections.defaultdict(set)
    for path in files():
        if not path.endswith(".antt"):
            continue
        text = re.sub(r"--[^\n]*", "", read(path))
        of_a_function = path.endswith("/Proof.antt")
        for m in DECLARED.finditer(text):
            if of_a_function and (MADE.match(m[2]) or m[1].endswith("-spec")):
                continue
            found[m[1]].add(path)
    return found


def imported(text):
    """The names that a file takes from a library."""
    got = set()
    for m in IMPORTED.finditer(text):
        if re.match(r"Rattle\.(?!std\b|core\b)", m[1]) or m[1].startswith("Rattle·"):
            continue
        for item in m[2].split(","):
            got.add(item.strip().split(" as ")[0].strip())
            if " as " in item:
                got.discard(item.strip())
    return got


def renamed():
    names = {}
    for n in declared():
        if n[:1].isupper() or not re.search(r"[A-Z-]", n) or not re.fullmatch(r"[\w'\-≡≤<>+*]+", n):
            continue
        new = by_rule(n)
        if new != n:
            names[n] = new
    # A lemma that would have its definition's name gets _lem.
    told = collections.Counter(names.values())
    for n in names:
        if "-" in n and told[names[n]] > 1:
            names[n] += "_lem"
    return names


def lemmas_in(path, text):
    """The lemmas of OLD_LEMMAS that a file declares or imports."""
    own = path[len("crates/"):-len(".antt")].replace("/", ".")
    return {n: n + "_lem" for n, module in OLD_LEMMAS.items()
            if module == "Rattle." + own or re.search(re.escape(module) + r"\.\{[^}]*\b" + n + r"\b", text)}


def main(argv):
    names = renamed()
    if argv == ["--list"]:
        for n in sorted(names):
            print(n, names[n])
        return 0
    for path in files():
        if not path.endswith((".antt", ".rt", ".edit")):
            continue
        text = read(path)
        kept = imported(text) if path.endswith(".antt") else set()
        old = lemmas_in(path, text) if path.endswith(".antt") else {}
        new = TOKEN.sub(lambda m: m[0] if m[0] in kept else old.get(m[0]) or names.get(m[0], m[0]), text)
        if new != text:
            with open(path, "w", encoding="utf-8") as f:
                f.write(new)
    return 0


if __name__ == "__main__":
    raise SystemExit(main(sys.argv[1:]))
