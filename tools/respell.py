#!/usr/bin/env python3
"""Respells the repository's own definitions and lemmas as today's Rattle spells them: words in snake case, and a dash only between two words
that are definitions themselves. Run once, at the top, on what the toolchain's port script left; docs/PORT.md says when it was.

It reads every .antt file for the names that are defined there, and renames them in .antt files, in the clauses of .rt files and in edits.
Names of src/ (functions, fields, types, constants) are not touched. Where two names would fall together, NAMED says what each is called."""
import collections
import glob
import re

TOKEN = re.compile(r"[^\s(){}\[\];.,λ]+")
DEFINED = re.compile(r"^(\s*)((?:pub |abbrev |unfoldable )*)([^\s(){}\[\];.,λ]+) :(?:\s|$)")

# A lemma that would have a definition's name ends in _lem; a definition that would have a field's name ends in _of.
NAMED = {
    "above-one": "above_one_lem",
    "bytes-of": "bytes_of_lem",
    "word-of": "word_of_lem",
    "is-nan": "is_nan_lem",
    "sign-changes": "sign_changes_lem",
    "second-output": "second_output_lem",
    "has-sign": "has_sign_lem",
    "filter-family": "filter_family_lem",
    "is-there": "is_there_lem",
    "levels-by": "levels_by_lem",
    "after-by": "after_by_lem",
    "no-samples": "no_samples_lem",
    "same-pool": "same_pool_lem",
    "capacity-at": "capacity_at_lem",
    "judged-by": "judged_by_lem",
    "lowPass": "low_pass_of",
    "softClip": "soft_clip_of",
    "onePole": "one_pole_lem",
    "one-pole": "one_pole_family",
}
# Lemmas that the port script had respelled, and whose names definitions now want: in these files alone, and not in paths.
GIVEN_WAY = {
    "all_there": ("all_there_lem", ["crates/magnetron/proofs/Told.antt", "crates/engine/proofs/turn/Turns.antt"]),
    "as_bytes": ("as_bytes_lem", ["crates/report/proofs/AsBytes.antt"]),
}
# Aliases that the port script took for facts.
GARBLED = {"All-there": "all-there", "Clear-of": "clear-of"}
STD = set("length set take drop get_or replicate map sets zip_with append window tab reverse add sub mul div neg round".split())


def files(*patterns):
    return sorted(f for p in patterns for f in glob.glob(p, recursive=True))


def snake(word):
    return re.sub(r"(?<=[a-z0-9])([A-Z])", lambda m: "_" + m.group(1).lower(), word)


def defined(antt):
    names = collections.defaultdict(set)
    for f in antt:
        if f.endswith("/Proof.antt"):
            continue
        for line in open(f):
            m = DEFINED.match(line)
            if m:
                names[m.group(3)].add(f)
    return names


def renamings(names):
    words = {snake(n) for n, fs in names.items() if "-" not in n and any("/specs/" in f for f in fs)} | STD
    out = dict(NAMED)
    for n in names:
        if n in out or not re.match(r"[a-z]", n):
            continue
        parts = [snake(p) if re.match(r"[a-z]", p) else p for p in n.split("-")]
        both = len(parts) == 2 and parts[0] in words and parts[1] in words
        new = ("-" if both else "_").join(parts)
        if new != n:
            out[n] = new
    return out


def respell(text, names, keep=lambda pre, tok: False):
    return TOKEN.sub(lambda m: m.group(0) if m.group(0) not in names or keep(text[m.start() - 1 : m.start()], m.group(0)) else names[m.group(0)], text)


def respell_rt(text, names):
    camel = {a: b for a, b in names.items() if "-" not in a}
    lines = []
    for line in text.split("\n"):
        head, slashes, comment = line.partition("//")
        ghost = re.match(r"\s*(ghost use|ghost |requires|ensures)", head) or "≡" in head or "→" in head
        lines.append((respell(head, names) if ghost else respell(head, camel)) + slashes + respell(comment, camel))
    return "\n".join(lines)


def main():
    antt = files("crates/*/specs/**/*.antt", "crates/*/proofs/**/*.antt")
    for f in antt:
        text = respell(open(f).read(), GARBLED)
        for old, (new, where) in GIVEN_WAY.items():
            if f in where:
                text = re.sub(r"(?<![.\w-])" + old + r"(?![\w.-])", new, text)
        open(f, "w").write(text)
    names = renamings(defined(antt))
    for f in antt:
        text = open(f).read()
        # a dashed word behind a dot in a proof by hand is a step that Rattle names
        keep = (lambda pre, tok: pre == "." and "-" in tok) if f.endswith("/Proof.antt") else (lambda pre, tok: False)
        open(f, "w").write(respell(text, names, keep))
    for f in files("crates/*/src/**/*.rt", "crates/*/must-fail/*.edit"):
        text = open(f).read()
        open(f, "w").write(respell(text, names) if f.endswith(".edit") else respell_rt(text, names))
    print(len(names), "names")


main()
