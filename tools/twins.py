#!/usr/bin/env python3
"""Lists functions of the sources whose bodies are the same but for names, numbers and texts.

usage: python3 tools/twins.py [TOKENS]      in the repository's root

Each group is two functions or more whose bodies, in which every name, number and text counts as one, are the same row of
at least TOKENS tokens (9 if it is not given). Bodies that only happen to look alike are listed too: what they do has to be
read.
"""
import glob
import re
import sys

TOKEN = re.compile(r'"(?:\\.|[^"\\])*"|\'(?:\\.|[^\'\\])\'|[A-Za-z_][A-Za-z_0-9]*|[0-9][0-9a-zA-Z_]*|\S')
KEPT = {"match", "if", "else", "for", "in", "let", "mut", "return", "while", "loop", "as", "self", "Some", "None", "Ok", "Err", "true", "false"}
FUNCTION = re.compile(r"\bfn ([a-z_0-9]+)")


def functions(text):
    """Each function with a body: its name, the number of its line, and its body."""
    for found in FUNCTION.finditer(text):
        at, depth = found.end(), 0
        while at < len(text):
            # a contract's braces stand on a line that begins with its word
            if text[at] == ";" and depth == 0:
                break
            if text[at] == "\n":
                line = text[at + 1:text.find("\n", at + 1)].strip()
                if line == "{" or line == "{}":
                    at = text.index("{", at)
                    break
                if re.match(r"(requires|ensures)\b", line):
                    # a trait's own method has no body, and ends with its contract
                    if line.endswith(";"):
                        at = len(text)
                        break
                    at = text.index("\n", at + 1)
                    continue
            if text[at] == "{" and not re.search(r"(requires|ensures)[a-z_ ]*$", text[found.end():at]):
                break
            at += 1
        if at >= len(text) or text[at] != "{":
            continue
        end, depth = at, 0
        while True:
            depth += {"{": 1, "}": -1}.get(text[end], 0)
            end += 1
            if depth == 0:
                break
        yield found.group(1), text.count("\n", 0, found.start()) + 1, text[at:end]


def shape(body):
    """The body with each name, number and text as one."""
    body = re.sub(r"//[^\n]*", "", body)
    tokens = []
    for token in TOKEN.findall(body):
        if token in KEPT:
            tokens.append(token)
        elif token[0].isalpha() or token[0] == "_":
            tokens.append("name")
        elif token[0].isdigit():
            tokens.append("number")
        elif token[0] == '"':
            tokens.append("text")
        else:
            tokens.append(token)
    return tuple(tokens)


def main():
    least = int(sys.argv[1]) if len(sys.argv) > 1 else 9
    groups = {}
    for path in sorted(glob.glob("crates/*/src/**/*.rt", recursive=True)):
        with open(path, encoding="utf-8") as file:
            text = file.read()
        for name, line, body in functions(text):
            row = shape(body)
            if len(row) >= least:
                groups.setdefault(row, []).append(f"{path}:{line} {name}")
    alike = [group for group in groups.values() if len(group) > 1]
    for group in alike:
        print("\n".join(group), end="\n\n")
    print(f"{len(alike)} groups of {sum(map(len, alike))} functions")


if __name__ == "__main__":
    main()
