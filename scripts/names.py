#!/usr/bin/env python3
"""Every crate, file, function, definition, theorem and must-fail edit that a page names in backticks is in the tree.

Called by .ci/run from the repository's root. Prints page, line and name of what is not there, and how many names it has looked up.
Code blocks, texts of programs and fragments of code are passed over.
"""

import os
import re
import sys
from pathlib import Path

PAGES = ["docs/PROMISES.md", "docs/READING.md", "docs/ARCHITECTURE.md"]

# Words in backticks that name nothing in the tree: what is printed and said, and letters that stand for a name.
WORDS = {"most", "refused:", "rt", "cargo", "cc", "unfolding", "requires", "ensures", "X.antt", "X/", "X/Laws.antt"}

# Names of the toolchain's own libraries begin so.
KIT = ("io::", "os::", "libc::", "Prim.", "mathlib.", "lib.")

ALIAS = re.compile(r"\bas (\w+)")
ITEM = re.compile(r"\b(?:struct|enum|const|type|fn)\s+(\w+)")
MEMBER = re.compile(r"^\s+(?:pub\s+)?(\w+)\s*[:,({]", re.MULTILINE)
CLAUSE = re.compile(r"\bensures\s+(\w+)\s*\{")
IN_C = re.compile(r"\b(?:ANALYSER|analyser)_\w+")
MODIFIER = re.compile(r"^(?:unfoldable|abbrev|pub|data|record|mod)\s+")


def logic_names(text):
    """The names that a file of antt declares: what stands before a colon, constructors and fields among it."""
    names = set()
    for line in text.splitlines():
        rest = line.strip()
        if rest.startswith("use "):
            names.update(ALIAS.findall(rest))
        if not rest or rest.startswith(("--", "use ", "let ", "|", "unfolding ")):
            continue
        declares = False
        while match := MODIFIER.match(rest):
            rest, declares = rest[match.end():], True
        head = re.split(r"\s+(?::(?=\s|$)|\(|\{)", rest)[0]
        if (declares or re.search(r"\s:(\s|$)", rest)) and not re.search(r"[=→(){}]", head):
            names.update(head.split())
    return names


class Tree:
    """What is in the tree: paths; of each crate the items of its code, and of all code also variants, fields, parameters and clauses; of each file
    of antt what it declares."""

    def __init__(self):
        self.paths, self.named, self.items, self.others, self.logic = set(), {}, {}, set(), {}
        self.crates = {path.name for path in Path("crates").iterdir()}
        for folder, folders, files in os.walk("."):
            folders[:] = [f for f in folders if f not in (".git", "target", "out")]
            for name in folders + files:
                path = str(Path(folder, name))
                self.paths.add(path)
                self.named.setdefault(name, []).append(path)
                if name in files and path.endswith((".rt", ".rs", ".c", ".h", ".antt")):
                    self.read(path, Path(path).read_text())
        self.all_logic = set().union(*self.logic.values())

    def read(self, path, text):
        if path.endswith(".antt"):
            self.logic[path] = logic_names(text)
            return
        first, second, *_ = Path(path).parts
        crate = second if first == "crates" else first
        self.items.setdefault(crate, set()).update(ITEM.findall(text))
        self.others.update(*(pattern.findall(text) for pattern in ((MEMBER, CLAUSE) if first == "crates" else (ITEM, IN_C))))

    def find(self, name, folder, line):
        """The paths that a page may mean: from the root or below crates/; in the folder of the path before it, or one above that; in specs/ of
        a crate that the line names; where nothing of this is there and no folder is given, all of this name."""
        name = name.rstrip("/")
        above = [str(p) for p in (Path(folder), *Path(folder).parents)]
        crates = [f"crates/{c}/specs" for c in re.findall(r"`(\w+)`", line) if c in self.crates]
        for base in ["", "crates", *above, *crates]:
            if str(Path(base, name)) in self.paths:
                return [str(Path(base, name))]
        return self.named.get(name, [])

    def edit(self, name):
        crate, _, edit = name.partition("/")
        return f"crates/{crate}/must-fail/{edit}.edit" in self.paths

    def member(self, name):
        """`crate::function`, or `Type::Member` of some crate."""
        first, _, last = name.partition("::")
        if first in self.crates:
            return last in self.items[first]
        return any(first in items and last in items | self.others for items in self.items.values())

    def known(self, name):
        code = name in self.others or any(name in items for items in self.items.values())
        return code or name in self.crates or name in self.all_logic or name in self.named


def is_fragment(token):
    return token in WORDS or token.startswith(KIT) or not re.fullmatch(r"[\w./:′*-]+", token) or re.fullmatch(r"[\d.,]+", token)


def check_page(page, tree):
    seen, looked_up, missing, folder, in_block = 0, 0, [], "crates", False
    for number, line in enumerate(Path(page).read_text().splitlines(), 1):
        in_block ^= line.startswith("```")
        if in_block or line.startswith("    "):
            continue
        for token in re.findall(r"`([^`]+)`", line):
            seen += 1
            name = token.split()[0] if token.startswith("./") else re.sub(r"\(.*\)$", "", token)
            if is_fragment(name):
                continue
            looked_up += 1
            if "::" in name:
                there = tree.member(name)
            elif "/" in name or re.search(r"\.\w+$", name):
                there = tree.find(name, folder, line)
                if there and "/" in name:
                    folder = there[0] if Path(there[0]).is_dir() else str(Path(there[0]).parent)
                there = there or tree.edit(name)
            else:
                there = tree.known(name)
            if not there:
                missing.append((number, token))
        # `name`, `name` in `file`; `name` (`file`, `file`): one of the files has the name.
        for names, files in re.findall(r"((?:`[^`]+`(?:, | and )?)+) (?:in |\()((?:`[^`]+\.antt`(?:, )?)+)", line):
            paths = [path for f in re.findall(r"`([^`]+)`", files) for path in tree.find(f, folder, line)]
            for name in re.findall(r"`([^`]+)`", names):
                if name in tree.all_logic and not any(name in tree.logic.get(path, ()) for path in paths):
                    missing.append((number, f"{name}` in `{', '.join(paths)}"))
    return seen, looked_up, missing


def main():
    tree = Tree()
    seen = looked_up = failed = 0
    for page in sys.argv[1:] or PAGES:
        all_tokens, names, missing = check_page(page, tree)
        seen, looked_up, failed = seen + all_tokens, looked_up + names, failed + len(missing)
        for number, name in missing:
            print(f"{page}:{number}: `{name}` is not in the tree")
    print(f"names: {looked_up} of {seen} words in backticks looked up, {failed} not in the tree")
    return 1 if failed else 0


sys.exit(main())
