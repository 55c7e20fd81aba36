#!/usr/bin/env python3
"""Brings the names of definitions, lemmas, fields and constructors to snake case, once, after the kit's own port of the spelling.

usage: python3 tools/respell.py [--list]      at the top of the repository

A name that begins with a small letter and has a capital or a dash inside is written in snake case wherever it stands: in specs/ and
proofs/, in the clauses of src/, in the texts of must-fail edits and between backticks in the pages. A type keeps its capitals, a
name that a library of the kit exports keeps its spelling, and so does whatever src/ declares. OTHERWISE lists what would fall
together with another name of one file, or with a field of a struct, and what is written in its place. --list prints the names and
writes nothing.
"""

import glob
import os
import re
import sys

OTHERWISE = {
    # a field of the struct ChunkHeader has the name; its four siblings go with it
    "timestampField": "timestamp_field_step",
    "lengthField": "length_field_step",
    "typeField": "type_field_step",
    "streamField": "stream_field_step",
    "extendedField": "extended_field_step",
    # a lemma beside the definition of that name
    "after-calls": "after_calls_lem",
    "at-start": "at_start_lem",
    "basic-of": "basic_of_lem",
    "by-type": "by_type_lem",
    "extended-of": "extended_of_lem",
    "is-payload": "is_payload_lem",
    "notes-for": "notes_for_all",
    "put-own": "put_own_lem",
    "rounded-up": "rounded_up_lem",
    "said-last": "said_last_lem",
    "stream-bytes": "stream_bytes_lem",
    "time-field": "time_field_lem",
    "type-in": "type_in_lem",
    "first_chunk": "first_chunk_lem",
    # a type in small letters
    "outsideLimits": "OutsideLimits",
    "shortBody": "ShortBody",
    "eight": "Eight",
    "fifteen": "Fifteen",
    "sixteen": "Sixteen",
    "computing": "Computing",
    # a type in two words
    "Goes_on": "GoesOn",
    # part of the name of a lemma that the kit's port has turned
    "getD-before": "get_d_before",
    "getD-in": "get_d_in",
}
# In these files alone: elsewhere the same word is a variable or another name.
WITHIN = {
    "first_chunk": "crates/round_trip/",
    "eight": "crates/refusal_table/",
    "fifteen": "crates/refusal_table/",
    "sixteen": "crates/refusal_table/",
    "computing": "crates/round_trip/",
}

NAME = r"[^\s(){}\[\]:;,.=|λ→«»\"]+"
TOKEN = re.compile(r"(?<![\w'′·◌-])([A-Za-z][\w'′]*(?:-[\w'′]+)*)(?![\w'′·◌-])")
SIGNATURE = re.compile(rf"^\s*(?:(?:pub|abbrev|unfoldable)\s+)*({NAME}(?:\s+{NAME})*)\s+:\s")
BINDER = re.compile(r"[({]([^(){}:=;,.]+?) : ")
ALIAS = re.compile(r" as ([\w-]+)(?=[,}\s]|$)")
LET = re.compile(rf"\blet ({NAME})\s*[:=]")
USE = re.compile(r"^(?:ghost )?use ([\w.'+-]+)\.\{([^}]*)\}")
OWN = re.compile(r"Rattle\.(\w+)\.(?:specs|proofs)\b")
CLAUSE = re.compile(r"^\s*(?:ghost|requires|ensures|pub ghost)\b")


def snake(name):
    name = re.sub(r"(?<=[a-z0-9])([A-Z])(?=[a-z0-9]|$)", lambda it: "_" + it[1].lower(), name)
    return name.replace("-", "_")


def wanted(name):
    return re.match(r"[a-z]", name) and re.search(r"[a-z0-9]-\w|[a-z0-9][A-Z]", name)


def names(files, crates):
    declared, library = set(), set()
    for path in files:
        with open(path, encoding="utf-8") as f:
            for line in f:
                if line.lstrip().startswith("--"):
                    continue
                use = USE.match(line)
                if not path.endswith("/Proof.antt"):
                    declared |= set(ALIAS.findall(line))
                if use:
                    own = OWN.match(use[1])
                    if not (own and own[1] in crates):
                        library |= {it.split(" as ")[0].strip() for it in use[2].split(",")}
                    continue
                at = SIGNATURE.match(line)
                if at and not path.endswith("/Proof.antt"):
                    declared |= set(at[1].split())
                if not path.endswith("/Proof.antt"):
                    declared |= set(LET.findall(line))
                    declared |= {it for group in BINDER.findall(line) for it in group.split()}
    turned = {it: snake(it) for it in declared if wanted(it) and it not in library}
    turned.update(OTHERWISE)
    return turned, declared


def spelled(text, turned, path, declared=()):
    def one(it):
        name = it[1]
        if name in WITHIN and not path.startswith(WITHIN[name]):
            return name
        # pages and edits, which the kit's port leaves, may have a name that it has turned elsewhere
        if name not in turned and wanted(name) and snake(name) in declared:
            return snake(name)
        return turned.get(name, name)

    return TOKEN.sub(one, text)


def antt(text, turned, path, _):
    lines = []
    for line in text.split("\n"):
        code, dashes, comment = line, "", ""
        if line.lstrip().startswith("--"):
            code, dashes, comment = "", line, ""
            dashes = re.sub(r"`[^`]*`", lambda it: spelled(it[0], turned, path), dashes)
        lines.append(spelled(code, turned, path) + dashes + comment)
    return "\n".join(lines)


def source(text, turned, path, _):
    return "\n".join(spelled(it, turned, path) if CLAUSE.match(it) else it for it in text.split("\n"))


def edit(text, turned, path, declared):
    lines, of = [], ""
    for line in text.split("\n"):
        if line.startswith("file:"):
            of = line[5:].strip()
        if line.startswith(("old:", "new:")) and (of.endswith(".antt") or CLAUSE.match(line[4:])):
            line = line[:4] + spelled(line[4:], turned, path, declared)
        lines.append(line)
    return "\n".join(lines)


def page(text, turned, path, declared):
    return re.sub(r"`[^`\n]+`", lambda it: spelled(it[0], turned, path, declared), text)


def main(argv):
    crates = {os.path.basename(it) for it in glob.glob("crates/*")}
    of_antt = sorted(glob.glob("crates/*/specs/**/*.antt", recursive=True) + glob.glob("crates/*/proofs/**/*.antt", recursive=True))
    turned, declared = names(of_antt, crates)
    if argv == ["--list"]:
        for old in sorted(turned):
            print(old, turned[old])
        return
    kinds = [(of_antt, antt)]
    kinds.append((sorted(glob.glob("crates/*/src/**/*.rt", recursive=True)), source))
    kinds.append((sorted(glob.glob("crates/*/must-fail/*.edit")), edit))
    kinds.append((["README.md", *sorted(glob.glob("docs/**/*.md", recursive=True))], page))
    changed = 0
    for paths, turn in kinds:
        for path in paths:
            with open(path, encoding="utf-8") as f:
                before = f.read()
            after = turn(before, turned, path, declared)
            if after != before:
                changed += 1
                with open(path, "w", encoding="utf-8") as f:
                    f.write(after)
    print(f"respell: {len(turned)} names, {changed} files")


if __name__ == "__main__":
    main(sys.argv[1:])
