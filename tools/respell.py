#!/usr/bin/env python3
"""Brings this repository's own definitions and lemmas to the spelling of today's Rattle: words in snake case, modules in camel case.

Run once at the top, right after the kit's port.py. A dash stays between two names after which a law is named (length-spread) and
becomes a low line between plain words. Names that a kit's library gives, those that Rattle makes for a proof, strings and functions of
src/ stay.
"""
import os
import re
import sys

# words of lists and bits after which laws are named
HEADS = {
    "length", "take", "drop", "map", "append", "replicate", "get_or", "set", "number", "spread", "cut", "leading", "cleared", "join",
    "zeros", "bits_of", "numbers", "total", "boxes", "frame", "letters", "mod", "pow", "pow_add", "shr", "shl",
}
# laws that would get the name of the definition that they speak of
LAWS = {
    "number-at", "number-on", "contract-got", "entry-fits", "lowest-free", "counter-place", "plain-place", "contract-written", "read-bare",
    "walk-numbers", "at-pointer", "same-positions", "same-tally", "journal-after", "list-after",
}
# laws, by file, that the kit's script had given such a name
TURNED = {
    "lists/proofs/Tallying": {"one_less", "one_more"},
    "loading/proofs/Used": {"in_use"},
    "loading/proofs/Ending": {"in_use"},
    "gate/proofs/Contracts": {"all_any"},
    "loading/proofs/Marks": {"rest_read"},
    "loading/proofs/read_rest/Proof": {"rest_read"},
    "lists/proofs/Listing": {"list_read"},
    "lists/proofs/Lines": {"list_read"},
    "lists/proofs/special/read/Proof": {"list_read"},
}
# fields of records in proofs/
FIELDS = {
    "lengths-agree", "in-limits", "file-long", "records-long", "new-long", "list-long", "entry-fits", "list-after", "journal-after",
    "list-reads", "read-list",
}
WORD = r"[A-Za-z][\w']*(?:-[\w']+)*"
TOKEN = re.compile(r"(?<![\w'«-])" + WORD)
MODULES = {"inner": "Inner", "table": "Table"}
PLACE = re.compile(r"\b(specs[./])(inner|table)\b")


def snake(word):
    if word == "getD":
        return "get_or"
    if not re.search(r"[a-z0-9][A-Z]", word) or not word[0].islower():
        return word
    return re.sub(r"(?<=[a-z0-9])([A-Z])", lambda m: "_" + m[1].lower(), word)


def dashed(name):
    """The name with a dash only between two names of HEADS."""
    parts, runs = [snake(p) for p in name.split("-")], []
    while parts:
        size = next((n for n in (2, 1) if len(parts) >= n and "_".join(parts[:n]) in HEADS), 1)
        runs.append("_".join(parts[:size]))
        parts = parts[size:]
    out = runs[0]
    for before, after in zip(runs, runs[1:]):
        out += ("-" if before in HEADS and after in HEADS else "_") + after
    return out


def files(*ends):
    for root, folders, names in os.walk("."):
        folders[:] = sorted(f for f in folders if f not in (".git", "out", "tools"))
        for name in sorted(names):
            if name.endswith(ends):
                yield os.path.join(root, name)


def read(path):
    with open(path, encoding="utf-8") as f:
        return f.read()


def of_function(path):
    """Whether a file answers for one function: its names are Rattle's."""
    return bool(re.search(r"/proofs/.*/(Proof|Answers|Invariants)\.antt$", path))


def declared():
    """The names with a dash that this repository declares, and those that it takes from a library."""
    own, lent = set(), set()
    crates = {line.split(":")[0].split()[0] for line in read("crates.txt").splitlines() if line.strip() and line[0] != "#"}
    for path in files(".antt", ".rt"):
        text = read(path)
        for item in re.finditer(r"use ([\w.]+)\.\{([^}]*)\}", text):
            path_of = item[1].split(".")
            if not (path_of[0] == "Rattle" and path_of[1] in crates):
                lent.update(re.findall(WORD, item[2]))
        if path.endswith(".rt") or of_function(path):
            continue
        code = re.sub(r"--.*", "", text)
        for line in code.splitlines():
            m = re.match(r"\s*(?:abbrev |pub |unfoldable |opaque )*(" + WORD + r")(?: \{[^}]*\}| \([^)]*\))* :", line)
            if m:
                own.add(m[1])
            own.update(n for n in re.findall(r"[({]((?:" + WORD + r" )+):", line) for n in n.split())
            own.update(re.findall(r"\blet (" + WORD + r")", line))
            own.update(n for ns in re.findall(r"λ ([^.]*)\.", line) for n in re.findall(WORD, ns))
            m = re.match(r"\s*(" + WORD + r")[^=]*=", line)
            if m:
                own.update(re.findall(WORD, m[0]))
    return {n for n in own if "-" in n} - lent, lent


def main():
    own, lent = declared()
    table = {}
    for name in own:
        table[name] = dashed(name) + ("_law" if name in LAWS else "")
    camel = set()
    for path in files(".antt", ".rt"):
        camel.update(w for w in re.findall(r"(?<![\w'])[a-z]\w*", read(path)) if snake(w) != w)
    camel -= lent

    def turn(text, laws=()):
        def one(m):
            name, at = m[0], m.start()
            dotted = text[at - 1 : at] == "."
            if name in laws and not dotted:
                return name + "_law"
            if name in table and (not dotted or name in FIELDS):
                return table[name]
            return "-".join(snake(w) if w in camel or w == "getD" else w for w in name.split("-"))

        return TOKEN.sub(one, text)

    here = set()
    for path in files(".antt"):
        here.update(re.findall(WORD, read(path)))

    def cited(m):
        return dashed(m[0]) if m[0] not in here and dashed(m[0]) in here else m[0]

    changed = 0
    for path in files(".antt", ".rt", ".edit", ".md"):
        text = read(path)
        new = PLACE.sub(lambda m: m[1] + MODULES[m[2]], text)
        if path.endswith(".rt"):
            pieces = re.split(r'("(?:\\.|[^"\\\n])*")', new)
            new = "".join(p if i % 2 else turn(p) for i, p in enumerate(pieces))
        elif path.endswith(".md"):
            new = re.sub("`([^`\n]+)`", lambda m: "`" + TOKEN.sub(cited, turn(m[1])) + "`", new)
        else:
            new = turn(new, TURNED.get(path[len("./crates/") : -len(".antt")], ()))
        if re.search(r"/specs/(Lib|inner|table)\.antt$", path):
            new = re.sub(r"(?m)^(pub mod )(inner|table)$", lambda m: m[1] + MODULES[m[2]], new)
        if new != text:
            changed += 1
            with open(path, "w", encoding="utf-8") as f:
                f.write(new)
    moved = 0
    for root, folders, names in os.walk("crates"):
        if os.path.basename(root) == "specs":
            for old, new in MODULES.items():
                for tail in ("", ".antt"):
                    if os.path.exists(os.path.join(root, old + tail)):
                        os.rename(os.path.join(root, old + tail), os.path.join(root, new + tail))
                        moved += 1
    print(f"respell: {changed} files, {moved} modules moved; {len(table)} names with dashes, {len(camel)} in camel case")
    if "--list" in sys.argv:
        for name in sorted(table):
            print(name, table[name])
        for name in sorted(camel):
            print(name, snake(name))


main()
