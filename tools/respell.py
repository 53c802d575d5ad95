#!/usr/bin/env python3
"""Respells the repository's own definitions and lemmas: snake case in place of camelCase. Run once at the top, after the kit's port.py.

Types, facts, records and modules keep their capital, functions of src/ and strings keep their names. Four lemmas inside other lemmas would then have the
name of the definition that they are about: they get `_lem`. `lastSamples`, the samples of the last frame, would have the name of a field: it is
`last_frame_samples`."""
import glob
import re

WORD = re.compile(r"(?<![A-Za-z0-9_'\-])[a-z][A-Za-z0-9_']*(?:-[A-Za-z0-9_'ℤℕ]+)*")
OWN = {"lastSamples": "last_frame_samples", "measuredState": "MeasuredState"}
KEPT = ("to_z", "entry_Is", "not_T")
LEMMAS = {
    "crates/round_trip/proofs/FileOfX.antt": ["goes_on"],
    "crates/frame/proofs/LawsEnds.antt": ["look_at", "up_at"],
    "crates/dsp/proofs/ExportReturns.antt": ["laid_out"],
}


def whole(word):
    return re.compile(r"(?<![A-Za-z0-9_'\-])" + re.escape(word) + r"(?![A-Za-z0-9_'\-])")


def snake(word):
    parts = []
    for part in word.split("-"):
        parts.append(re.sub(r"(?<=[a-z0-9])([A-Z])", lambda m: "_" + m.group(1).lower(), part))
    return "-".join(parts)


def main():
    sources = [p for p in glob.glob("crates/**/*", recursive=True) if p.endswith((".antt", ".rt")) and "/out/" not in p]
    texts = {p: open(p, encoding="utf-8").read() for p in sources}
    for path, names in LEMMAS.items():
        for name in names:
            texts[path] = whole(name).sub(name + "_lem", texts[path])
    names = dict(OWN)
    for path, text in texts.items():
        if path.endswith(".antt"):
            for word in WORD.findall(text):
                if word not in names and not word.startswith(KEPT) and snake(word) != word:
                    names[word] = snake(word)
    for path in glob.glob("crates/*/*must-fail/*.edit") + glob.glob("*.md") + glob.glob("docs/**/*.md", recursive=True):
        texts[path] = open(path, encoding="utf-8").read()
    left = set()
    for path, text in texts.items():
        new = WORD.sub(lambda m: names.get(m.group(0), m.group(0)), text)
        if path.endswith(".antt"):
            left |= {w for w in WORD.findall(new) if re.search(r"[a-z0-9][A-Z]", w)}
        if new != open(path, encoding="utf-8").read():
            open(path, "w", encoding="utf-8").write(new)
    print(len(names), "names;", "left:", " ".join(sorted(left)))


main()
