#!/usr/bin/env python3
"""Brings the names of the repository's own definitions and lemmas to snake case, once, after the kit's port.py.

usage: python3 tools/respell.py [FOLDER]

A definition or lemma of specs/ or proofs/ that is spelled in camel case or with dashes gets underscores: partOf is part_of,
read-end is read_end. Where a lemma would then have the name of a definition it gets _lem, where a field would, _holds. Functions of src/, names that Rattle
makes, names of the library, strings and must-fail edits are left alone. It prints what to look at.
"""

import collections
import os
import re
import sys

TOKEN = re.compile(r"[^\s(){}.;,\"`]+")
DECLARED = re.compile(r"^(\s*)(?:(?:pub|abbrev|unfoldable|private)\s+)*([^\s:(){}.;,]+)\s*:\s")
SEVERAL = re.compile(r"^\s+(?:pub )?([^\s:(){}.;,]+(?: [^\s:(){}.;,]+)*) : ")
USE = re.compile(r"(?:ghost )?(?:pub )?use ([\w.+◌-]+?)\.\{([^}]*)\}")
ALIAS = re.compile(r"^use (\S+) as ([\w-]+)$", re.M)
# Definitions that would meet another one's name.
OTHERWISE = {"open-start": "open_start_file"}
LOWER = re.compile(r"[a-z?][A-Z]")


def files(root, endings):
    for folder, dirs, names in os.walk(os.path.join(root, "crates")):
        dirs[:] = sorted(d for d in dirs if d != "out")
        for name in sorted(names):
            if name.endswith(endings):
                yield os.path.join(folder, name)


def in_specs(path):
    return "/specs/" in path or re.search(r"/proofs/[^/]*\.antt$", path) is not None


def snake(name):
    name = OTHERWISE.get(name, name)
    name = re.sub(r"getD(?![a-z])|^get_d(?=_)", "get_or", name)
    return re.sub(r"(?<=[a-z0-9?])[A-Z]|(?<=[A-Z])[A-Z](?![A-Z0-9_-])", lambda m: "_" + m.group(0).lower(), name).replace("-", "_")


def is_odd(name):
    return name[0].islower() and (LOWER.search(name) is not None or "-" in name)


def declared(text):
    found, fields, inside = set(), set(), None
    for line in text.split("\n"):
        if re.match(r"\s*(pub |abbrev |unfoldable )*(record|data) ", line):
            inside = len(line) - len(line.lstrip())
            continue
        m = DECLARED.match(line)
        if line.strip() and not line.lstrip().startswith("--") and inside is not None and len(line) - len(line.lstrip()) <= inside:
            inside = None
        several = SEVERAL.match(line) if inside is not None else None
        for name in several.group(1).split() if several else [m.group(2)] if m else []:
            found.add(name)
            if inside is not None:
                fields.add(name)
    return found, fields


def plan(root):
    names, fields = set(), set()
    for path in files(root, (".antt",)):
        if in_specs(path):
            with open(path, encoding="utf-8") as f:
                a, b = declared(f.read())
            names |= a
            fields |= b
    groups = collections.defaultdict(set)
    for name in names:
        groups[snake(name) if is_odd(name) or name.startswith("get_d_") else name].add(name)
    turned = {}
    for new, olds in groups.items():
        ranked = sorted(olds, key=lambda n: ("-" in n, LOWER.search(n) is None, n))
        for place, old in enumerate(ranked):
            to = new if place == 0 else new + ("_holds" if old in fields else "_lem") * place
            if old in fields and not is_odd(old):
                continue
            if to != old:
                turned[old] = to
    return turned, fields, names


def parts(text, comment):
    """The text cut into (kind, piece): 'code', 'comment' or 'string'."""
    out, i, start = [], 0, 0
    while i < len(text):
        if text.startswith(comment, i):
            end = text.find("\n", i)
            end = len(text) if end < 0 else end
            out += [("code", text[start:i]), ("comment", text[i:end])]
            i = start = end
        elif text[i] == '"':
            j = i + 1
            while j < len(text) and text[j] != '"':
                j += 2 if text[j] == "\\" else 1
            out += [("code", text[start:i]), ("string", text[i:j + 1])]
            i = start = j + 1
        else:
            i += 1
    out.append(("code", text[start:]))
    return out


def turn(path, text, turned, fields, own):
    theirs, ours = set(), set()
    for m in USE.finditer(text):
        first = re.match(r"Rattle\.(\w+)\.", m.group(1) + ".")
        words = {w.strip().split(" as ")[-1] for w in m.group(2).split(",")}
        if first and first.group(1) in own:
            ours |= words
        else:
            theirs |= words
    aliases = {m.group(2) for m in ALIAS.finditer(text) if m.group(1).split(".")[1:2] == [] or m.group(1).split(".")[0] != "Rattle" or m.group(1).split(".")[1] not in own}
    local = set()
    if path.endswith(".antt") and not in_specs(path):
        local = declared(text)[0] - ours
    skip = (theirs - ours) | local
    in_proofs = "/proofs/" in path
    olds = set()

    def code(piece, before):
        def one(m):
            word = m.group(0)
            start = m.start()
            dotted = (piece[start - 1] if start else before[-1:]) == "."
            if word not in turned or word in skip:
                return word
            plain = "-" not in word and LOWER.search(word) is None
            if plain and (dotted or path.endswith(".rt")):
                return word
            if dotted and "-" in word and in_proofs and word not in fields:
                return word
            if dotted and re.search(r"\btie\.$", piece[:start]):
                return word
            qualifier = re.search(r"([\w-]+)\.$", piece[:start]) if dotted else None
            if qualifier and qualifier.group(1) in aliases:
                return word
            olds.add(word)
            return turned[word]
        return TOKEN.sub(one, piece)

    def comment(piece):
        def quoted(m):
            return "`" + TOKEN.sub(lambda w: turned.get(w.group(0), w.group(0)), m.group(1)) + "`"
        piece = re.sub(r"`([^`]*)`", quoted, piece)
        return TOKEN.sub(lambda w: turned.get(w.group(0), w.group(0)) if LOWER.search(w.group(0)) else w.group(0), piece)

    out, before = [], ""
    for kind, piece in parts(text, "//" if path.endswith(".rt") else "--"):
        out.append(code(piece, before) if kind == "code" else comment(piece) if kind == "comment" else piece)
        before = piece or before
    return "".join(out), olds


def main(argv):
    root = argv[0] if argv else "."
    own = set(os.listdir(os.path.join(root, "crates")))
    turned, fields, names = plan(root)
    for old, new in sorted(turned.items()):
        if "_lem" in new and "_lem" not in old:
            print(f"look: {old} is {new}")
    changed = 0
    for path in files(root, (".antt", ".rt")):
        with open(path, encoding="utf-8") as f:
            text = f.read()
        new, olds = turn(path, text, turned, fields, own)
        before = set(TOKEN.findall(text))
        for old in sorted(olds):
            if turned[old] in before and turned[old] not in names:
                print(f"look: {path}: {old} is now {turned[old]}, which stood there already")
        if new != text:
            changed += 1
            with open(path, "w", encoding="utf-8") as f:
                f.write(new)
    for folder in ("docs", "."):
        for name in sorted(os.listdir(os.path.join(root, folder))):
            path = os.path.join(root, folder, name)
            if name.endswith(".md") and name != "PORT.md":
                with open(path, encoding="utf-8") as f:
                    text = f.read()
                new = re.sub(r"`([^`\n]*)`", lambda m: "`" + TOKEN.sub(lambda w: turned.get(w.group(0), w.group(0)), m.group(1)) + "`", text)
                if new != text:
                    changed += 1
                    with open(path, "w", encoding="utf-8") as f:
                        f.write(new)
    print(f"respell: {len(turned)} names, {changed} files")
    return 0


if __name__ == "__main__":
    raise SystemExit(main(sys.argv[1:]))
