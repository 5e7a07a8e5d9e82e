#!/usr/bin/env python3
"""Spells the names that this repository's own specs and proofs declare in snake case.

usage: tools/respell.py BEFORE    at the top, once, after the kit's port.py; BEFORE is the commit before it

What `specs/` and the files of `proofs/` that hold lemmas declare (words, lemmas, fields, constructors) loses its dashes and inner
capitals: `lowBytes-append` is `low_bytes_append`. A name that is brought in with a dot in it, `Pad·pad`, is `pad_pad`. Types, facts and modules, which begin with a capital, keep their spelling, and so do
strings, the functions of src/ and the names of other libraries. In the pages and comments a name is turned where it stands between
backticks. A line `meets:` names two names that would fall together in one file: nothing is written then, but for those that TABLE
below spells by hand.
"""
import glob
import os
import re
import subprocess
import sys

# Names that would fall together with another, or with a word of the library.
# A lemma that would have its word's name gets `_lem`.
TABLE = {
    "mostRequests": "requests_most",
    "never-fall": "replies_never_fall",
    "in-range": "is_in_range",
    **{n: n.replace("-", "_") + "_ask" for n in """send-request send-requests enqueue-fds enqueue-packet enqueue-packets take-closed
        poll-for-reply poll-for-reply-or-error poll-for-events discard-reply""".split()},
}

# Lemmas that the kit's script gave a name which a word of their file gets here.
AGAIN = {
    "crates/listing/specs/Digits.antt": "digits_in",
    "crates/savepoint/specs/SavedLaws.antt": "held_fits",
    "crates/saving/specs/Finding.antt": "ids_at",
    "crates/rows/specs/Theorems.antt": "kept_row",
    "crates/xiengmado/specs/Keeping.antt": "kept_row",
}

NAME = r"[^\s(){}.;,@\"«»`]+"
DECLARED = re.compile(r"^ *(?:abbrev |unfoldable |pub )*(?:record |data )?([^\s(){}.;,@\"«»:]+)(?: \{[^{}\n]*\})* :(?: |$)", re.M)
FIELD = re.compile(r"^ *(?:pub )?([^\s(){}.;,@\"«»:]+) : ", re.M)
OWN_FILES = ("crates/*/specs/*.antt", "crates/*/specs/**/*.antt", "crates/*/proofs/*.antt")


def snake(name):
    words = re.sub(r"(?<=[a-z0-9])[A-Z]+(?=[A-Z][a-z]|[^A-Za-z]|$)|(?<=[a-z0-9])[A-Z]", lambda m: "_" + m[0].lower(), name)
    words = re.sub(r"(?<=_)([a-z]+)(?=[A-Z])", lambda m: m[0] + "_", words)
    return words.lower().replace("-", "_")


def is_own(name):
    return name[0].islower() and name[0].isascii() and ("-" in name or name != name.lower())


def declared(text):
    text = re.sub(r"(?m)^\s*--.*$", "", text)
    return {m for m in DECLARED.findall(text) if re.fullmatch(r"[a-z][\w'\u2032-]*", m)}


def own_names(before):
    names = set()
    for pattern in OWN_FILES:
        for path in glob.glob(pattern, recursive=True):
            names |= declared(open(path, encoding="utf-8").read())
    old = set()
    listed = subprocess.check_output(["git", "ls-tree", "-r", "--name-only", before], text=True).split("\n")
    for path in listed:
        if re.fullmatch(r"crates/\w+/(specs/.*|proofs/[^/]*)\.antt", path):
            old |= declared(subprocess.check_output(["git", "show", before + ":" + path], text=True))
    return {n for n in names if is_own(n)}, {n for n in old if is_own(n)}


def tokens(text):
    text = re.sub(r"(?m)--.*$", "", text)
    return set(re.findall(NAME, re.sub(r"Rattle\.[\w.+]+", "", text)))


def main():
    now, old = own_names(sys.argv[1])
    table = {n: TABLE.get(n, snake(n)) for n in now | old}
    for n in sorted(table):
        if n not in TABLE and "-" in n and any(m != n and table[m] == table[n] for m in table):
            table[n] += "_lem"
    token = re.compile(NAME)
    span = re.compile(r"`[^`\n]*`")
    dotted = re.compile(r"\b([A-Z]\w*)·(\w+)")
    turn = lambda text: token.sub(lambda m: table.get(m[0], m[0]), dotted.sub(lambda m: m[1].lower() + "_" + snake(m[2]), text))
    said, wrote = [], {}
    code = sorted(glob.glob("crates/*/**/*.antt", recursive=True) + glob.glob("crates/*/src/*.rt"))
    for path in code:
        was = text = open(path, encoding="utf-8").read()
        if path in AGAIN:
            text = token.sub(lambda m: AGAIN[path] + "_lem" if m[0] == AGAIN[path] else m[0], text)
        if path.endswith(".rt"):
            lines = []
            for line in text.split("\n"):
                if re.match(r"\s*(ghost|requires|ensures)\b", line):
                    line = turn(line)
                elif re.match(r"\s*//", line):
                    line = span.sub(lambda m: turn(m[0]), line)
                lines.append(line)
            after = "\n".join(lines)
        else:
            lines = []
            for line in text.split("\n"):
                comment = re.match(r"(.*?)(\s*--(?: .*|$))", line) if "--" in line else None
                if comment:
                    lines.append(turn(comment[1]) + span.sub(lambda m: turn(m[0]), comment[2]))
                else:
                    lines.append(turn(line))
            after = "\n".join(lines)
            have = tokens(text)
            into = {}
            for n in have:
                into.setdefault(table.get(n, n), set()).add(n)
            if "/proofs/" in path and path.endswith("/Proof.antt"):
                into = {}
            said += [f"meets: {path}: {' '.join(sorted(v))}" for k, v in into.items() if len(v) > 1]
        if after != was:
            wrote[path] = after
    for path in ["README.md"] + sorted(glob.glob("docs/*.md")):
        if path == "docs/PORT.md" or not os.path.exists(path):
            continue
        text = open(path, encoding="utf-8").read()
        after = span.sub(lambda m: turn(m[0]), text)
        if after != text:
            wrote[path] = after
    print("\n".join(said))
    if said and "--anyway" not in sys.argv:
        raise SystemExit(1)
    for path, after in wrote.items():
        open(path, "w", encoding="utf-8").write(after)
    print(f"respell: {len(table)} names, {len(wrote)} files")


if __name__ == "__main__":
    main()
