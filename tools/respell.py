#!/usr/bin/env python3
"""Brings this repository's own definitions and lemmas to snake case: run once, at the top, after port.py and before any edit by hand.

A name of ours is one in camelCase or with a dash that stands in an .antt file of ours and that no file imports from outside.
Names that a proof folder (proofs/F/) makes, strings, comments and Rust's own names stay, but a comment's names in backticks follow.
"""

import glob
import os
import re

# a name whose snake case is another's already: a lemma or a local beside the definition of that name
BESIDE = {
    name: name.replace("-", "_") + "_lem"
    for name in (
        "blocks-from by-options empty-part is-option new-part new-timer option-rule options-read padding-rule "
        "recent-after right-edge two-octets with-option with-timestamps within-limits lies-in side-after"
    ).split()
}
NAME = re.compile(r"[A-Za-z_\u03b1-\u03c9][A-Za-z0-9_'\u2262\u2261-]*")
OURS = re.compile(r"^(?:[a-z][A-Za-z0-9_'\u2262\u2261]*(?:-[A-Za-z0-9_'\u2262\u2261]+)+|[a-z][a-z0-9_]*[A-Z][A-Za-z0-9_']*)$")
USE = re.compile(r"\s*(?:ghost )?(?:pub )?use ([^\s;{]+?)(?:\.\{([^}]*)\})?(?: as (\S+))?;?\s*$")


def snake(name):
    if name in BESIDE:
        return BESIDE[name]
    name = name.replace("-", "_")
    return re.sub(r"(?<=[a-z0-9])([A-Z])", lambda m: "_" + m.group(1).lower(), name)


def texts(*patterns):
    return sorted({p for pattern in patterns for p in glob.glob(pattern, recursive=True) if "/out/" not in p})


def code_of(line):
    """The line without what a comment says."""
    bare = line.strip()
    if bare.startswith("--") or bare.startswith("//"):
        return ""
    return re.split(r" -- | // ", line)[0]


def own_names():
    outside, found = set(), set()
    for path in texts("crates/**/*.antt", "crates/*/src/**/*.rt"):
        with open(path, encoding="utf-8") as f:
            for line in f:
                use = USE.match(line)
                if not use or not use.group(2):
                    continue
                crate = re.match(r"Rattle\.(\w+)", use.group(1))
                if not (crate and os.path.isdir("crates/" + crate.group(1))):
                    outside |= {part.split(" as ")[0].strip() for part in use.group(2).split(",")}
    for path in texts("crates/*/specs/*.antt", "crates/*/proofs/*.antt"):
        with open(path, encoding="utf-8") as f:
            for line in f:
                if not USE.match(line):
                    found |= {t for t in NAME.findall(code_of(line)) if OURS.match(t)}
    return found - outside


def respelled(text, names):
    return NAME.sub(lambda m: snake(m.group(0)) if m.group(0) in names else m.group(0), text)


def in_comment(text, names):
    return re.sub(r"`[^`]*`", lambda m: respelled(m.group(0), names), text)


def turned(line, names):
    bare = line.strip()
    if bare.startswith("--") or bare.startswith("//"):
        return in_comment(line, names)
    parts = re.split(r"( -- .*| // .*)", line, maxsplit=1)
    code = "".join(p if p.startswith('"') else respelled(p, names) for p in re.split(r'("(?:[^"\\]|\\.)*")', parts[0]))
    return code + in_comment("".join(parts[1:]), names)


def rewrite(path, change):
    with open(path, encoding="utf-8") as f:
        old = f.read()
    new = change(old)
    if new != old:
        with open(path, "w", encoding="utf-8") as f:
            f.write(new)


def main():
    names = own_names()
    for path in texts("crates/**/*.antt", "crates/*/src/**/*.rt"):
        rewrite(path, lambda text: "".join(turned(line, names) for line in text.splitlines(keepends=True)))
    for path in texts("crates/*/must-fail/*.edit"):
        rewrite(path, lambda text: "".join(line if line.startswith("#") else turned(line, names) for line in text.splitlines(keepends=True)))
    # the pages also name what port.py itself respelled
    now = set()
    for path in texts("crates/**/*.antt", "crates/*/src/**/*.rt"):
        with open(path, encoding="utf-8") as f:
            now |= set(NAME.findall(f.read()))
    for path in texts("README.md", "docs/**/*.md"):
        with open(path, encoding="utf-8") as f:
            said = {t for span in re.findall(r"`[^`]*`", f.read()) for t in NAME.findall(span) if OURS.match(t)}
        gone = {t for t in said if t not in now and snake(t) in now}
        rewrite(path, lambda text: in_comment(text, gone))
    print(f"{len(names)} names")


if __name__ == "__main__":
    main()
