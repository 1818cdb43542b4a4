#!/usr/bin/env python3
"""Brings the repository's own definitions, fields and lemmas to today's spelling: words in snake case.

usage: spell.py [--list]      at the top of the repository, once, right after the kit's port.py

A name is the repository's own if specs/ declares it, or a file of proofs/ that is no answer to a goal.
`camelCase` and `plain-words` become `camel_case` and `plain_words`. What src/ names, types and modules,
and what the library or the prover names stay. A lemma that would get its definition's name ends in `_lem`.
--list prints the old and the new names, and writes nothing.
"""

import os
import re
import sys

TOKEN = r"[^\s(){}\[\],;.:@\"`→×]+"
DECLARED = re.compile(rf"^(?:abbrev |unfoldable )?(?:pub )?(?:abbrev |unfoldable )?({TOKEN}) : (.*)$", re.M)
MEMBER = re.compile(rf"^ +(?:pub )?({TOKEN}) : ", re.M)
USED = re.compile(r"^\s*(?:unfoldable )?(?:pub )?(?:ghost )?use ([^\s{;]+?)\.?(?:\{([^}]*)\})?(?: as (\S+?))?;?$", re.M)
ANSWER = re.compile(r"^(?:\{[^}]*\} → )*(?:[a-z]+\.Need-|[a-z]+\.Inv|needs?\.|goal\.|given\.)|: Type 1\} → ")
# port.py spelled these lemmas like the definitions that they are about, or that their file uses
EARLIER = {
    "no_span": ("chain_log/specs/laws/ReadingLaws.antt", "chain_log/proofs/span/Proof.antt"),
    "run_end": ("chain_state/specs/laws/FitsLaws.antt",),
    "sum_fits": ("iq_monitor/specs/laws/WordBounds.antt",),
    "end_fits": ("log/specs/laws/CheckLaws.antt", "one_record/specs/laws/GoodRings.antt"),
    "held_in": ("replay_theorem/specs/laws/Replayed.antt",),
}
WORD = re.compile(rf"(?<![^\s(){{}}\[\],;.:@\"`→×])({TOKEN})")


def files(root="crates"):
    for folder, dirs, names in os.walk(root):
        dirs[:] = sorted(d for d in dirs if d not in ("out", "must-fail", "data"))
        for n in sorted(names):
            if n.endswith((".rt", ".antt")):
                yield os.path.join(folder, n)


def snake(name):
    return re.sub(r"(?<=[a-z0-9])([A-Z])", lambda m: "_" + m.group(1).lower(), name).replace("-", "_")


def table(texts):
    """The new name of each name of the repository's own that is not spelled as today's are."""
    crates = set(os.listdir("crates"))
    own, answers, foreign = set(), set(), set()
    for path, text in texts.items():
        for m in USED.finditer(text):
            top = m.group(1).split(".")
            if not (top[0] == "Rattle" and len(top) > 1 and top[1] in crates):
                foreign |= {it.split()[-1] for it in (m.group(2) or "").split(",") if it.split()}
        if not path.endswith(".antt"):
            continue
        for m in DECLARED.finditer(text):
            if "/proofs/" in path and ANSWER.search(m.group(2)):
                answers.add(m.group(1))
            else:
                own.add(m.group(1))
        own |= {m.group(1) for m in MEMBER.finditer(text)}
    old = {n for n in own if "◌" not in n and n not in foreign and n not in answers and n[0].islower() and re.search(r"[a-z0-9][A-Z]|-", n)}
    camel = {n for n in old if re.search(r"[a-z0-9][A-Z]", n) and "-" not in n}
    names = {n: snake(n) for n in camel}
    taken = set(names.values()) | own | foreign
    for n in sorted(old - camel):
        names[n] = snake(n) + "_lem" if snake(n) in taken else snake(n)
    return names


def turn(path, text, names):
    """Replaces whole names; a Rust expression has none of the old spellings, and a comment's words have no dashed ones."""
    rust = path.endswith(".rt")

    def word(m):
        n = m.group(1)
        if n not in names:
            return n
        line = text[text.rfind("\n", 0, m.start()) + 1 : m.start()]
        remark = ("//" in line) if rust else ("--" in line)
        if "-" in n and remark and text[m.start() - 1] != "`":
            return n
        return names[n]

    return WORD.sub(word, text)


def main(argv):
    texts = {p: open(p, encoding="utf-8").read() for p in files()}
    for name, places in EARLIER.items():
        for place in places:
            path = os.path.join("crates", place)
            if path in texts:
                texts[path] = re.sub(rf"(?<![\w'.-]){name}(?![\w'-])", name + "_lem", texts[path])
    names = table(texts)
    if "--list" in argv:
        for a, b in sorted(names.items()):
            print(a, b)
        return 0
    for path, text in sorted(texts.items()):
        new = turn(path, text, names)
        words = {m.group(1) for m in WORD.finditer(text)}
        for n in sorted(words & set(names)):
            if names[n] in words:
                print(f"look: {path}: {n} and {names[n]}")
        with open(path, encoding="utf-8") as f:
            same = f.read() == new
        if not same:
            with open(path, "w", encoding="utf-8") as f:
                f.write(new)
    print(f"{len(names)} names")
    return 0


if __name__ == "__main__":
    raise SystemExit(main(sys.argv[1:]))
