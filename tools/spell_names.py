#!/usr/bin/env python3
"""Spells the repository's own definitions and lemmas in snake case, once, after the kit's own script.

usage: python3 tools/spell_names.py        at the top of the repository

A name that a file of specs/ or proofs/ declares, other than a goal of one function's proof, and that has a capital inside or a
dash between words, is written in snake case wherever it stands: in specs/, proofs/, the clauses of src/, the must-fail edits and
the pages. `getD` is `get_or`, as the library has it. A dash stays where it joins `length` or `get_or` to a definition, since that is
the left side of the lemma's equation. A lemma that would get its definition's name ends in `_lem`. Types, modules and names of
src/ are left as they are. Prints the names that would meet another name all the same, and leaves those; and the parameters and
variables of src/ that are called as a definition is now.
"""

import os
import re
import sys

NAME = r"[^\s(){}.;,@\"«»]"
TOKEN = re.compile(rf"(?<!{NAME})({NAME}+)(?!{NAME})")
WORD = re.compile(r"(?<![\w'.-])[a-z][\w'₀-₉-]*(?![\w-])")
DECLARED = re.compile(rf"(?m)^ *(?:abbrev |unfoldable |pub )*({NAME}+)(?: \{{[^{{}}\n]*\}})*(?: \([^()\n]*\))* :(?= |$)")
RULESET = re.compile(rf"(?m)^ *(?:pub )?ruleset ({NAME}+)")
LET = re.compile(rf"\blet ({NAME}+) [:=]")
COMMENT = re.compile(r"(?m)--.*$")
# names that the kit's script turned before, by a row of its own library's
TURNED = {
    "length_part": "length-part",
    "length_over": "length-over",
    "get_d_part": "get_or-part",
    "home_by": "home_by_lem",
    "left_by": "left_by_lem",
    "same_bytes": "same_bytes_lem",
}
EQUATIONS = ("length", "get_or")
# parameters, and names under which an import is brought in
OTHERS = {
    "beforeAdd": "earlier",
    "creatingIn": "creating_in",
    "largerOf": "larger_of",
    "meetsRun": "meets_run",
    "new_Home": "new_home",
    "old_Home": "old_home",
    "ownerPlace": "owner_place",
    "sinceAdd": "later",
    "tablesAfter": "tables_after",
    "writesBy": "writes_by",
}


def files(*ends):
    for folder, dirs, names in os.walk("crates"):
        dirs[:] = sorted(d for d in dirs if d != "out")
        for n in sorted(names):
            if n.endswith(ends):
                yield os.path.join(folder, n)


def is_goals(path):
    """Whether the file is the proof of one function."""
    parts = path.split(os.sep)
    return "proofs" in parts and len(parts) - parts.index("proofs") > 2


def snake(name):
    name = name.replace("getD", "get_or")
    words = re.sub(r"(?<=[a-z0-9])[A-Z]", lambda m: "_" + m[0].lower(), name)
    return re.sub(r"(?<=.)-(?=.)", "_", words)


def turned(name, definitions):
    if name in TURNED:
        return TURNED[name]
    plain = name.replace("getD", "get_or")
    for head in EQUATIONS:
        if plain.startswith(head + "-"):
            rest = snake(plain[len(head) + 1 :])
            if rest in definitions:
                return head + "-" + rest
    return snake(name)


def without_paths(code):
    """The text with the items of its imports, and not their paths."""
    return re.sub(rf"(?m)^use {NAME}+(?:\.{NAME}+)*(?=\.\{{|$| as )", "use ", code)


def main():
    texts = {p: open(p, encoding="utf-8").read() for p in files(".antt", ".rt", ".edit")}
    declared, definitions, lemmas, tokens = set(), set(), set(), {}
    for p, t in texts.items():
        if p.endswith(".antt"):
            code = COMMENT.sub("", t)
            tokens[p] = set(TOKEN.findall(without_paths(code)))
            if not is_goals(p):
                found = set(DECLARED.findall(code)) | set(RULESET.findall(code)) | set(LET.findall(code))
                declared |= found
                definitions |= {snake(n) for n in found if "-" not in n}
                lemmas |= {n for n in found if "-" in n}
    for p in texts:
        if p.endswith(".antt") and is_goals(p):
            found = set(DECLARED.findall(COMMENT.sub("", texts[p])))
            declared |= {n for n in found if n.endswith("-spec")}
    wanted = {n for n in declared if n[0].islower() and (re.search(r"[a-z0-9][A-Z]|.-.", n) or n in TURNED)}
    wanted = {n for n in wanted if "◌" not in n}
    table = {n: turned(n, definitions) for n in wanted}
    table = {a: b + "_lem" if a in lemmas and b in definitions else b for a, b in table.items()}
    table = {a: b for a, b in table.items() if a != b}
    by_new = {}
    for a, b in table.items():
        by_new.setdefault(b, set()).add(a)
    for b, olds in sorted(by_new.items()):
        for p, found in tokens.items():
            here = olds & found
            if len(here) > 1 or here and b in found and b not in table:
                print(f"{p}: {', '.join(sorted(here))} and {b}")
                for a in here:
                    table.pop(a, None)

    table.update(OTHERS)
    use = re.compile(r"(?ms)^use ([^\s{;]+?)\.\{([^}]*)\}")
    lent = {}
    for p, t in texts.items():
        if p.endswith(".antt"):
            taken = set()
            for path, items in use.findall(t):
                if not path.startswith("Rattle.") or path.startswith("Rattle.std."):
                    taken |= {w.strip().split(" as ")[0] for w in items.split(",")}
            lent[p] = taken
    for p, taken in sorted(lent.items()):
        for a in sorted(taken & set(table)):
            print(f"{p}: {a} is a library's here, and is left in this file")

    fresh = {b: a for a, b in table.items()}
    for p, t in texts.items():
        if p.endswith(".rt"):
            used = set(re.findall(r"\b[a-z]\w*", t)) & set(table)
            for w in sorted(set(re.findall(r"(?:[(,|] *|\bmut |\blet |\bfor |\n +)([a-z]\w*)(?: *:| =|,| in)", t))):
                if w in fresh and fresh[w] in used:
                    print(f"{p}: {w} is a variable or a field, and {fresh[w]} becomes {w}")

    def antt(p, t):
        keep = lent.get(p, set())
        def one(m):
            n = m[1]
            return n if n in keep else table.get(n, n)
        quoted = lambda m: re.sub(r"`[^`\n]+`", lambda q: clauses(q[0]), m[0])
        return COMMENT.sub(quoted, TOKEN.sub(one, t))

    def clauses(t):
        return WORD.sub(lambda m: table.get(m[0], m[0]), t)

    count = 0
    for p, t in texts.items():
        new = antt(p, t) if p.endswith(".antt") else clauses(t)
        if new != t:
            count += 1
            with open(p, "w", encoding="utf-8") as f:
                f.write(new)
    for folder, _, names in [("README.md", [], [])] + list(os.walk("docs")):
        for p in [folder] if folder.endswith(".md") else [os.path.join(folder, n) for n in sorted(names) if n.endswith(".md")]:
            if os.path.basename(p).startswith("PORT"):
                continue
            t = open(p, encoding="utf-8").read()
            new = re.sub(r"`[^`\n]+`", lambda m: WORD.sub(lambda w: table.get(w[0], w[0]), m[0]), t)
            if new != t:
                count += 1
                with open(p, "w", encoding="utf-8") as f:
                    f.write(new)
    print(f"{len(table)} names, {count} files")
    return 0


if __name__ == "__main__":
    sys.exit(main())
