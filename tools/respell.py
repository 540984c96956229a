#!/usr/bin/env python3
"""Respells this repository's own definitions and lemmas as today's Rattle does: words in snake case, facts and records in camel case.

It was run once, after the toolchain's port.py, at the top of the repository:

    python3 tools/respell.py

A name goes if it has a dash and is defined in specs/ or proofs/ of a crate here, by a signature or as a local name. Names of goals and
of the library stay: those are Rattle's own. Names of docs/ and README go with them where they stand between backticks.
"""

import glob
import re

SPLIT = re.compile(r"([\s(){}\[\],;.⌜⌝⟨⟩|]+)")
OWN = re.compile(r"Rattle\.(device|layout|exceptions|store|recovery|history|rollback|linuximages)\.")
DASHED = re.compile(r"[\w']-\w")
SIGNATURE = re.compile(
    r"^\s*(?:(?:pub|abbrev|unfoldable|data|record|mutual)\s+)*([^\s(){}:;,.]+)\s*(?:\([^)]*\)\s*)*:\s", re.M
)
# names whose respelling by the rule would fall together with another or read badly
BY_HAND = {"Plain-device": "Plain", "T-is": "T_is", "only_at": "OnlyAt", "putMid-sector": "put_mid_sector"}

# names that port.py respelled, as they stand in the pages
IN_PAGES = {"merge-step", "store-up", "header-read", "next-place", "place-of", "table-of", "on-both", "cut-step", "run-length", "cut-short", "has-room", "next-free", "shape-of", "view-shared"}


def antt_files():
    return sorted(
        glob.glob("crates/*/specs/**/*.antt", recursive=True) + glob.glob("crates/*/proofs/**/*.antt", recursive=True)
    )


def uncommented(text):
    return re.sub(r"--[^\n]*", "", text)


def is_projected(parts, i):
    return i >= 2 and parts[i - 1] == "." and parts[i - 2] != ""


def root(parts, i):
    while is_projected(parts, i):
        i -= 2
    return parts[i]


def surveyed():
    library, goals, plain, projected, signed = set(), set(), set(), set(), set()
    for name in antt_files():
        text = open(name).read()
        for module, items in re.findall(r"^\s*use ([^\s{]+)\.\{([^}]*)\}", text, re.M):
            for item in items.split(","):
                words = item.strip().split(" as ")
                if not OWN.match(module):
                    library.add(words[0].strip())
                elif re.search(r"\.(Goals|Given)$", module):
                    goals.add(words[-1].strip())
        for pair in re.findall(r"^\s*(?:(?:pub|abbrev)\s+)*([^\s:]+)\s*:\s*goal\.(\S+)", text, re.M):
            goals.update(pair)
        signed.update(n for n in SIGNATURE.findall(uncommented(text)) if DASHED.search(n))
        parts = SPLIT.split(uncommented(text))
        for i in range(0, len(parts), 2):
            if DASHED.search(parts[i]):
                (projected if is_projected(parts, i) else plain).add(parts[i])
    own = (plain | signed) - library - goals
    return own, (projected & signed) - library - goals


def respelled(name):
    if name in BY_HAND:
        return BY_HAND[name]
    if name[0].isupper():
        return "".join(word[:1].upper() + word[1:] for word in name.split("-"))
    return name.replace("-", "_")


def is_own(parts, i, names, fields):
    if parts[i] not in names:
        return False
    if not is_projected(parts, i) or root(parts, i)[:1].isupper():
        return True
    # a step of a proof, as c.area-place, is Rattle's
    return parts[i] in fields and (parts[i - 2] not in ("c", "w", "goal") or parts[i] in ("set-get", "set-set"))


def turned(text, names, fields):
    parts = SPLIT.split(text)
    return "".join(respelled(p) if i % 2 == 0 and is_own(parts, i, names, fields) else p for i, p in enumerate(parts))


def by_lines(text, comment, turn):
    out = []
    for line in text.split("\n"):
        code, mark, rest = line.partition(comment)
        out.append(turn(code) + mark + rest)
    return "\n".join(out)


def main():
    own, fields = surveyed()
    names = own | fields | set(BY_HAND)
    for n in sorted(names):
        print(n, respelled(n))
    for name in antt_files():
        text = open(name).read()
        new = by_lines(text, "--", lambda code: turned(code, names, fields))
        open(name, "w").write(new)
    for name in sorted(glob.glob("crates/*/src/*.rt")):
        text = open(name).read()
        new = by_lines(text, "//", lambda code: code if '"' in code else turned(code, names, names))
        open(name, "w").write(new)
    for name in ["README.md"] + sorted(glob.glob("docs/*.md")):
        text = open(name).read()
        new = re.sub(r"`[^`\n]+`", lambda m: "`" + turned(m.group(0)[1:-1], names | IN_PAGES, fields) + "`", text)
        open(name, "w").write(new)


if __name__ == "__main__":
    main()
