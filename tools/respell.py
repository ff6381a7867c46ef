#!/usr/bin/env python3
"""Brings the repository's own definitions and lemmas to today's spelling: words in snake case, facts and types in camel case.

usage: python3 tools/respell.py [--say]      at the top of the repository, once, after the toolchain's own script

It goes by what specs/ and proofs/ define: a name such as leastSize or sound-parts becomes least_size or sound_parts, and
Is-ensemble becomes IsEnsemble. Names of src/, of goals and of their steps, strings, comments and samples stay. Two names of
one crate that would fall together are told, and nothing is written; BY_HAND settles such a pair. With --say it only prints
the names.
"""

import glob
import re
import sys

# what the rule alone would make fall together, or would make a word of the proof language
BY_HAND = {
    "leader-size": "leader_size_is",
    "first_of": "first_fault",
}

NAME = re.compile(r"(?<![\w'\u00b7-])[^\W\d_][\w'\u00b7-]*")
HEAD = re.compile(r"^ *(?:abbrev |unfoldable |pub )*(?:(?:record|data) ([^\W\d_][\w'-]*)|([^\W\d_][\w'-]*)(?= :(?:\s|$)))", re.M)


def read(path):
    with open(path, encoding="utf-8") as f:
        return f.read()


def without_comments(text):
    return re.sub(r"--.*", "", text)


def spelled(name):
    if name in BY_HAND:
        return BY_HAND[name]
    if name[0].isupper():
        return "".join(part[0].upper() + part[1:] for part in name.split("-"))
    return re.sub(r"(?<=[a-z0-9])[A-Z]", lambda m: "_" + m.group(0).lower(), name).replace("-", "_")


def defined(crate):
    """The names that a crate's specs/ and proofs/ define, but for the answers of goals."""
    names = set()
    for path in glob.glob(crate + "/specs/**/*.antt", recursive=True) + glob.glob(crate + "/proofs/**/*.antt", recursive=True):
        text = without_comments(read(path))
        goals = set(re.findall(r"^(?:abbrev )?(?:pub )?([\w'-]+) : goal\.", text, re.M))
        for line in HEAD.finditer(text):
            name = line.group(1) or line.group(2)
            if name not in goals:
                names.add(name)
    return names


def turned(text, names, comment):
    """The text with each name respelled, but for what a comment or a string says."""

    def line(whole):
        code, mark, said = whole.partition(comment)
        parts = re.split(r'("[^"]*")', code)
        parts[::2] = [NAME.sub(lambda m: names.get(m.group(0), m.group(0)), part) for part in parts[::2]]
        return "".join(parts) + mark + said

    return "\n".join(line(whole) for whole in text.split("\n"))


def in_page(text, names):
    """A page's text with each name between backquotes respelled."""

    def quoted(m):
        return NAME.sub(lambda n: names.get(n.group(0), n.group(0)), m.group(0))

    return re.sub(r"`[^`\n]*`", quoted, text)


def main():
    crates = sorted(glob.glob("crates/*"))
    own = {crate: defined(crate) for crate in crates}
    names = {n: spelled(n) for crate in crates for n in own[crate] if spelled(n) != n}
    wrong = False
    for crate in crates:
        by = {}
        for n in own[crate]:
            by.setdefault(spelled(n), []).append(n)
        for to, those in sorted(by.items()):
            if len(those) > 1:
                print(f"{crate}: {', '.join(sorted(those))} would all be {to}")
                wrong = True
    if "--say" in sys.argv[1:]:
        for n in sorted(names):
            print(f"{n} {names[n]}")
    if wrong or "--say" in sys.argv[1:]:
        return int(wrong)
    for path in glob.glob("crates/**/*.antt", recursive=True) + glob.glob("crates/**/*.rt", recursive=True):
        old = read(path)
        new = turned(old, names, "--" if path.endswith(".antt") else "//")
        if new != old:
            with open(path, "w", encoding="utf-8") as f:
                f.write(new)
    for path in glob.glob("docs/*.md") + ["README.md"]:
        old = read(path)
        new = in_page(old, names)
        if new != old:
            with open(path, "w", encoding="utf-8") as f:
                f.write(new)
    return 0


if __name__ == "__main__":
    sys.exit(main())
