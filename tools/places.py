#!/usr/bin/env python3
"""Counts the places of docs/DESIGN-PASS.md in crates/*/src, point by point: `python3 tools/places.py [--list]`, at the top of a checkout."""
import difflib
import glob
import re
import sys

SHOW = "--list" in sys.argv
SOURCES = {}
for path in sorted(glob.glob("crates/*/src/**/*.rt", recursive=True)):
    SOURCES[path] = open(path, encoding="utf-8").read()

HEAD = re.compile(r'^ *(?:pub(?:\([a-z]+\))? )?(?:extern "C" )?fn (\w+)(?:<[^>]*>)?\((.*?)\)((?: -> [^\n{]+)?)', re.S | re.M)


def functions():
    """Each function: path, line, name, parameters, result, comment above, text from its head to its closing brace."""
    for path, text in SOURCES.items():
        for m in HEAD.finditer(text):
            line = text.count("\n", 0, m.start()) + 1
            indent = re.match(r" *", m.group(0)).group(0)
            end = text.find("\n" + indent + "}", m.end())
            body = text[m.end():end]
            above = []
            for l in reversed(text[:m.start()].rstrip("\n").split("\n")):
                if l.strip().startswith("//"):
                    above.append(l.strip()[2:])
                elif not l.strip().startswith("#["):
                    break
            parameters = [p for p in re.split(r",(?![^<(\[]*[>)\]])", m.group(2)) if ":" in p or "self" in p]
            yield path, line, m.group(1), parameters, m.group(3), " ".join(reversed(above)), body


def report(point, what, places):
    print(f"{point:3} {len(places):4}  {what}")
    if SHOW:
        for p in places:
            print("          " + p)


def crate(path):
    return path.split("/")[1]


FUNCTIONS = list(functions())

# 1: enums of two variants; flags beside values; numbers that stand for none or for a refusal
two = []
for path, text in SOURCES.items():
    for m in re.finditer(r"^(?:pub )?enum (\w+) \{(.*?)^\}", text, re.S | re.M):
        variants = [v.strip() for v in m.group(2).split(",\n") if v.strip()]
        if len(variants) == 2:
            two.append(f"{crate(path)}::{m.group(1)}: " + "; ".join(" ".join(v.split()) for v in variants))
report("1a", "own enums of two variants", two)
flags = []
for path, text in SOURCES.items():
    for m in re.finditer(r"^pub struct (\w+)[^{]*\{(.*?)^\}", text, re.S | re.M):
        for f in re.findall(r"(\w+): bool,", m.group(2)):
            flags.append(f"{crate(path)}::{m.group(1)}.{f}")
report("1b", "flags beside values in a struct", flags)
none = []
for path, line, name, ps, result, above, body in FUNCTIONS:
    if re.search(r"u64|usize|Saturation|Judged", result) and re.search(r"\b(or 0|0 (where|is no|for a)|zero where|or n where|plus 1|more than the number of|number above|refusal)", above):
        none.append(f"{crate(path)}::{name} -{result.strip(' -')}")
report("1c", "functions whose number stands for none or for a refusal", none)

# 2: functions whose bodies are alike
sized = []
for f in FUNCTIONS:
    body = f[6][f[6].find("\n{"):] if "\n{" in f[6] else f[6][f[6].find("{"):]
    tokens = re.findall(r"\w+|[^\w\s]", re.sub(r"//.*", "", body))
    if len(tokens) >= 20:
        sized.append((f, tokens))
alike = []
for i in range(len(sized)):
    for j in range(i):
        a, b = sized[i], sized[j]
        if abs(len(a[1]) - len(b[1])) * 4 > len(a[1]):
            continue
        s = difflib.SequenceMatcher(None, a[1], b[1], autojunk=False)
        if s.real_quick_ratio() > 0.85 and s.quick_ratio() > 0.85 and s.ratio() > 0.85:
            alike.append(f"{crate(b[0][0])}::{b[0][2]}, {crate(a[0][0])}::{a[0][2]}")
report("2", "pairs of functions with bodies alike (0.85 by tokens, 20 tokens and more)", alike)

# 3: loops by hand
loops = [f"{path}:{n + 1}: {l.strip()}" for path, text in SOURCES.items() for n, l in enumerate(text.split("\n")) if re.match(r" *(while|loop)\b", l)]
report("3", "while and loop", loops)

# 4: equality, order, conversion by hand
hand = [f"{crate(p)}::{n}" for p, _, n, *_ in FUNCTIONS if re.match(r"(same_|is_same|wide|words_before|key_before|\w+_before$|code_of|operation_of|is_wanted|larger|smaller)", n) and n not in ("round_before", "table_before", "first_before")]
report("4", "equality, order, conversion by hand, by name", hand)
false = sum(len(re.findall(r"return (?:false|true);", t)) for t in SOURCES.values())
print(f"4b  {false:4}  `return false;` and `return true;`")

# 5: parameters
wide = [f"{len(ps)} {crate(p)}::{n}" for p, _, n, ps, *_ in FUNCTIONS if len(ps) >= 8]
report("5a", "functions of eight parameters and more", sorted(wide, key=lambda s: -int(s.split()[0])))
travel = 0
for _, _, _, ps, *_ in FUNCTIONS:
    names = [p.split(":")[0].strip() for p in ps]
    travel += len([n for n in names if n in ("z", "inner", "entries", "moves", "states", "words", "sizes", "body", "count", "k")])
print(f"5b  {travel:4}  parameters that are parts of a table, an index, a case's rules or sizes")

# 6: a slice and a number of its rows
pairs = [f"{crate(p)}::{n}" for p, _, n, ps, *_ in FUNCTIONS if any("[u" in q for q in ps) and any(re.match(r"\s*(n|count|k): usize", q) for q in ps)]
report("6", "functions that take a slice and a number of its rows", pairs)

# 7: a parameter that says which step
steps = [f"{crate(p)}::{n}" for p, _, n, ps, *_ in FUNCTIONS if any(re.search(r"\b(kind: \w*Use|collapse: bool|used: Use)", q) for q in ps)]
report("7", "functions with a parameter that says which step to take", steps)

# 8: answers
answers = invariants = 0
for path in glob.glob("crates/*/proofs/**/*.antt", recursive=True):
    text = open(path, encoding="utf-8").read()
    if path.endswith("/Answers.antt"):
        answers += len(re.findall(r"^pub [^:\n]+ : goal\.", text, re.M))
    elif path.endswith("/Invariants.antt"):
        invariants += len(re.findall(r"^abbrev pub ", text, re.M))
print(f"8   {answers:4}  answers; {invariants} invariants and measures")
