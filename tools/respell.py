#!/usr/bin/env python3
"""Respells the definitions, lemmas and fields of this repository's antt files: words in snake case, types in camel case.

usage: python3 tools/respell.py        at the top, once, after the kit's script for older repositories

A name is one that an antt file of crates/ declares. Names that Rattle makes (those declared at a goal, and the first name
behind `goal.`, `c.`, `l.` and `w.`) stay. The clauses of .rt files, the names in must-fail edits, and the code spans of
README.md and docs/ follow. It stops, and writes nothing, where two names would fall together.
"""

import collections
import os
import re

TOKEN = re.compile(r"[^\s(){}.;,@\"«»\[\]`]+")
DECLARED = re.compile(r"^\s*(?:(?:abbrev|unfoldable|pub|private|opaque)\s+)*([^\s:(){}\[\],;]+)\s*:\s+(.*)$")
RECORD = re.compile(r"^\s*(?:(?:abbrev|pub)\s+)*(?:record|data)\s+([^\s:(){}]+)")
MADE = re.compile(r":\s*goal\.")
# Names that would fall together with another, and tests.
CHOSEN = {
    "wall?": "is_wall",
    "exposed?": "is_exposed",
    "told?": "is_told",
    "leads?": "is_leading",
    "audit-right": "audit_right_lem",
    "walls-stay": "walls_stay_lem",
    "walls-tell": "walls_tell_lem",
    "worked-run": "worked_run_lem",
    "line-over": "line_over_lem",
    "skip-blanks": "skip_blanks_lem",
    "byteOf": "byte_of_mark",
    "exposedAt": "exposure_at",
    "far-end": "far_end_of",
    "isComplement": "is_complement_mark",
    "isOpen": "is_open_mark",
    "isPrinted": "is_printed_mark",
    "refusalOf": "layout_refusal",
    "shownAt": "shown_entry",
    "page-left": "page_left_by",
    # A module, a call and a step of a run have these names too, and no file has both.
    "Count-among": "CountAmong",
    "need-of": "need_of",
    "print-page": "print_page",
}
# Behind these heads the first name is one that Rattle makes.
HEADS = ("goal", "c", "l", "w", "g")


def files(ending):
    for folder, dirs, names in os.walk("crates"):
        dirs[:] = sorted(d for d in dirs if d != "out")
        for name in sorted(names):
            if name.endswith(ending):
                yield os.path.join(folder, name)


def snake(name):
    words = re.sub(r"(?<=[a-z0-9])[A-Z]", lambda m: "_" + m[0].lower(), name)
    return words.replace("-", "_")


def camel(name):
    head, *rest = re.split(r"[-_]", name)
    return head[:1].upper() + head[1:] + "".join(w[:1].upper() + w[1:] for w in rest)


def is_type(line):
    return re.search(r"(→|:)\s*Type 0(\s+where)?\s*$", line) is not None


def turned(name, types):
    if name in CHOSEN:
        return CHOSEN[name]
    if name in types and (name[:1].islower() or "-" in name):
        return camel(name)
    if name[:1].islower() and re.search(r"[a-z0-9A-Z]-|[a-z0-9][A-Z]|-[+]", name):
        return snake(name)
    return name


def words_of(text):
    """The names of a text, each with the name before it where that alone stands behind its dot."""
    for m in TOKEN.finditer(text):
        before = text[: m.start()]
        behind = before.endswith(".")
        head = None
        if behind:
            h = re.search(r"([^\s(){}.;,@\"«»\[\]`]+)\.$", before[-80:])
            deeper = re.search(r"\.[^\s(){}.;,@\"«»\[\]`]+\.$", before[-80:])
            head = h[1] if h and not deeper else None
        yield m, head


def respell(text, names, made):
    out, at = [], 0
    for m, head in words_of(text):
        word = m[0]
        new = names.get(word)
        if new is None or word in made or (head in HEADS):
            continue
        out += [text[at : m.start()], new]
        at = m.end()
    return "".join(out) + text[at:]


def main():
    declared, types, made = {}, set(), collections.defaultdict(set)
    tokens = set()
    for path in files(".antt"):
        text = open(path, encoding="utf-8").read()
        for line in text.splitlines():
            if line.lstrip().startswith("--"):
                continue
            d, r = DECLARED.match(line), RECORD.match(line)
            if r:
                declared.setdefault(r[1], path)
                types.add(r[1])
            elif d and MADE.search(line):
                made[path].add(d[1])
            elif d:
                declared.setdefault(d[1], path)
                if is_type(line) and not line.startswith(("  pub", "    pub")):
                    types.add(d[1])
            tokens.update(TOKEN.findall(re.sub(r"--.*", "", line)))
    for path in files(".rt"):
        tokens.update(TOKEN.findall(open(path, encoding="utf-8").read()))
    names = {n: turned(n, types) for n in declared}
    names = {a: b for a, b in names.items() if a != b}
    back = collections.defaultdict(set)
    for a, b in names.items():
        back[b].add(a)
    bad = [f"{sorted(a)} -> {b}" for b, a in back.items() if len(a) > 1]
    bad += [f"{sorted(back[b])} -> {b}, which stands already" for b in back if b in tokens and b not in ("CountAmong", "need_of", "print_page")]
    if bad:
        print("\n".join(sorted(bad)))
        return 1
    for path in [*files(".antt"), *files(".rt"), *files(".edit")]:
        text = open(path, encoding="utf-8").read()
        turn = respell(text, names, made[path])
        if turn != text:
            open(path, "w", encoding="utf-8").write(turn)
    pages = ["README.md"] + [os.path.join(d, f) for d, _, fs in os.walk("docs") for f in fs if f.endswith(".md")]
    for path in pages:
        text = open(path, encoding="utf-8").read()
        turn = re.sub(r"`[^`\n]+`", lambda m: respell(m[0], names, set()), text)
        if turn != text:
            open(path, "w", encoding="utf-8").write(turn)
    print(f"{len(names)} names respelled")
    return 0


if __name__ == "__main__":
    raise SystemExit(main())
