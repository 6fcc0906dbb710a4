#!/usr/bin/env python3
# Counts the places of the design pass in src/ that a pattern can find: python3 tools/places.py [FOLDER]. The lists behind the counts
# that take a reader are in docs/DESIGN-PASS.md.
import collections
import glob
import os
import re
import sys

root = sys.argv[1] if len(sys.argv) > 1 else "."
files = sorted(glob.glob(os.path.join(root, "crates/*/src/*.rt")))
text = {f: open(f).read() for f in files}


def name(f):
    return f.split("crates/")[1].replace("/src/", "::").replace(".rt", "")


# 1: enums whose one variant only tells that there is nothing, or why
print("## 1: enums of the shape of Option or Result, or with a refusal beside answers")
found = []
for f, s in text.items():
    for m in re.finditer(r"(?m)^(?:pub )?enum (\w+)(?:<[^>]*>)? \{\n((?:.*\n)*?)\}", s):
        body = re.sub(r"//.*", "", m.group(2))
        body = re.sub(r"\{[^}]*\}", "{..}", body)
        vs = [v.strip() for v in body.replace("\n", " ").split(",") if v.strip()]
        data = [v for v in vs if "(" in v or "{" in v]
        refused = [v for v in vs if v.startswith("Refused")]
        if refused or (len(vs) == 2 and len(data) == 1) or (len(vs) == 2 and not data):
            found.append("%s::%s { %s }" % (name(f), m.group(1), ", ".join(vs)))
print("\n".join(found))
print("enums:", len(found))

# 3: loops, and those that count an index by hand
print("\n## 3: while loops")
whiles, counted = 0, []
for f, s in text.items():
    lines = s.split("\n")
    for i, l in enumerate(lines):
        m = re.match(r"(\s*)(?:'\w+: )?while (.*) \{$", l)
        if not m:
            continue
        whiles += 1
        indent = m.group(1)
        j = i + 1
        while j < len(lines) and not (lines[j].startswith(indent + "}") and not lines[j].startswith(indent + " ")):
            j += 1
        body = "\n".join(lines[i + 1 : j])
        for v in set(re.findall(r"\b([a-z_]\w*)\b", m.group(2))):
            if re.search(r"\b%s (?:\+=|-=) 1;|\b%s = %s \+ 1;" % (v, v, v), body):
                counted.append("%s:%d" % (name(f), i + 1))
                break
print("while loops:", whiles, " with an index counted by hand:", len(counted))
print(" ".join(counted))
print("for loops:", sum(len(re.findall(r"(?m)^\s*(?:'\w+: )?for .* in .*\{$", s)) for s in text.values()))

# 5: facts in the contracts of three or more functions, and parameters that travel together
print("\n## 5: facts of one value in the contracts of three or more functions")
facts = collections.Counter()
pairs = collections.Counter()
for f, s in text.items():
    for m in re.finditer(r"(?m)^ *(?:pub )?fn (\w+)(?:<[^>]*>)?\(((?:.|\n)*?)\)(?: ->[^\n]*)?\n((?: +(?:requires|ensures)[^\n]*\n)*)", s):
        for r in re.findall(r"requires[^{]*\{(.*)\}\n", m.group(3)):
            for h in set(re.findall(r"\b([A-Z]\w+)\b", r)):
                facts[h] += 1
        ps = [p.strip() for p in re.sub(r"\s+", " ", m.group(2)).split(",") if ":" in p]
        ps = [re.sub(r"'\w+ ?", "", p) for p in ps]
        ts = [p for p in ps if re.search(r"\[|[A-Z]", p)]
        for i in range(len(ts)):
            for j in range(i + 1, len(ts)):
                pairs[(ts[i], ts[j])] += 1
for h, n in facts.most_common():
    if n >= 3:
        print("%4d %s" % (n, h))
print("pairs of parameters, by name and type, in five or more functions:")
for (a, b), n in pairs.most_common():
    if n >= 5:
        print("%4d (%s, %s)" % (n, a, b))
