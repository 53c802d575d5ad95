#!/usr/bin/env python3
"""Lists the places in crates/*/src that read like an older Rattle, point by point (docs/DESIGN-PASS.md).

    tools/forms.py [POINT..] [--names]     at the top of the repository: the counts, by crate; with --names each place
"""
import collections
import glob
import re
import sys

FILES = sorted(glob.glob("crates/*/src/**/*.rt", recursive=True))
TEXT = {name: open(name).read() for name in FILES}
WORDS = {"const", "else", "false", "fn", "for", "if", "in", "let", "loop", "match", "mut", "pub", "return", "true", "while"}


def place(name, start):
    return f"{name[7:]}:{TEXT[name].count(chr(10), 0, start) + 1}"


def found(pattern, keep=lambda name, m: True):
    """The places of a pattern, each with its first line."""
    for name in FILES:
        for m in re.finditer(pattern, TEXT[name], re.M):
            if keep(name, m):
                yield f"{place(name, m.start())} {m.group(0).strip().splitlines()[0]}"


def functions():
    """Name, file, place, signature, clauses and body of each function."""
    for name in FILES:
        text = TEXT[name]
        for m in re.finditer(r"^( *)(?:pub(?:\(\w+\))? )?(?:const )?(?:extern \"C\" )?fn (\w+)", text, re.M):
            end = re.search(r"^" + m.group(1) + r"\}$", text[m.start():], re.M)
            if not end:
                continue
            whole = text[m.start() : m.start() + end.end()]
            head, _, body = whole.partition("\n" + m.group(1) + "{\n") if "\n" + m.group(1) + "{\n" in whole else whole.partition("{\n")
            clauses = re.search(r"\n +(requires|ensures)", head)
            signature = head[: clauses.start()] if clauses else head
            yield m.group(2), name, m.start(), signature, head[len(signature) :], body


ALL = list(functions())


def parameters(signature):
    inner = signature[signature.index("(") + 1 : signature.rindex(")")]
    return re.findall(r"(\w+): ([^,()]*(?:\[[^\]]*\])?)", inner)


def point_1():
    """Enums of the shape of Option or Result; a flag beside values; numbers for kinds and refusals."""
    yield from found(r"^(?:pub(?:\(crate\))? )?enum \w+ \{\n(?:    .*\n)*?    (?:Refused\(\w+\)|Nothing),\n(?:    .*\n)*?\}")
    yield from found(r"^    (?:pub(?:\(crate\))? )?\w+: bool,$", in_struct)
    yield from found(r"^    pub code: u32,$")
    yield from found(r"^ *(?:pub(?:\(crate\))? )?fn (?:code|bad_block)\(\w+: .*")
    for fn, name, start, signature, _, body in ALL:
        kinds = [p for p, t in parameters(signature) if t == "u8" and (p == "letter" or (p == "i" and "ranges" in name))]
        if fn != "from" and (kinds or re.search(r"let task\b", body) or re.search(r"fn pivot.*-> u8", signature)):
            yield f"{place(name, start)} fn {fn}: a number for a kind"


def in_struct(name, m):
    before = TEXT[name][: m.start()]
    opened = max(before.rfind(" struct "), before.rfind("\nstruct "))
    return opened > before.rfind("\n}") and opened > before.rfind("fn ")


def shape(signature, body):
    """A function's text without its names, types and numbers."""
    text = re.sub(r"//.*", "", signature + "{" + body)
    return re.sub(r"\d[\d_a-fx.]*", "0", re.sub(r"[A-Za-z_]\w*", lambda m: m.group(0) if m.group(0) in WORDS else "x", re.sub(r"\s+", " ", text)))


def point_2():
    """Functions of one crate, or of two, that differ in names, types, sizes and constants alone."""
    groups = collections.defaultdict(list)
    for fn, name, start, signature, _, body in ALL:
        if fn != "main" and body.count("\n") > 1:
            groups[shape(signature, body)].append(f"{place(name, start)} fn {fn}")
    for group in groups.values():
        if len(group) > 1:
            yield from (f"{group[0]} = {other}" for other in group[1:])


def point_3():
    """Loops that count by hand: each `while` and `loop`."""
    yield from found(r"^ *(?:while|loop)\b.*")


SMALL = "abs|apart|bits16|both|byte|clamp_\\w+|copy|either|equal|equal_coefficients|equal_history|equal_part|excess|folded|heads_agree|higher|contexts_agree|least|lower|magnitude|mark_ok|max_of|narrowed|nibble|no_encoder|no_head|no_loop|padded|put_mark|put_part|shift|signed16|told_loop|wide|zeros|zeros_at|above_seven|glyph|fill|fresh_bytes|fresh_samples|first_nibbles|first_samples|samples_of|put_entry_zeros"


def point_4():
    """Equality, order, copying, conversion and printing by hand: what a derive or a method of the library says, and fields set to a local of their name."""
    for fn, name, start, signature, _, body in ALL:
        if re.fullmatch(SMALL, fn) and "float/" not in name:
            yield f"{place(name, start)} fn {fn}"
    yield from found(r"^ +(\w+): \1,$")


def point_5():
    """Facts that stand in the contracts of three or more functions of a crate, and three or more parameters that three or more functions of a crate share."""
    facts = collections.defaultdict(set)
    groups = collections.defaultdict(set)
    for fn, name, start, signature, clauses, _ in ALL:
        crate = name.split("/")[1]
        for requires in re.findall(r"requires \w* ?\{(.*)\}", clauses):
            for word in re.findall(r"\b[A-Z]\w+", requires):
                facts[crate, word].add(fn)
        pairs = frozenset(parameters(signature))
        for other, other_name, _, other_signature, _, _ in ALL:
            if other_name.split("/")[1] == crate and other != fn:
                shared = pairs & frozenset(parameters(other_signature))
                if len(shared) > 2:
                    groups[crate, shared].update((fn, other))
    for (crate, word), fns in sorted(facts.items()):
        if len(fns) > 2:
            yield f"{crate}: {word} in {len(fns)} contracts"
    for (crate, shared), fns in sorted(groups.items(), key=str):
        if len(fns) > 2 and not any(crate == c and shared < s and len(f) > 2 for (c, s), f in groups.items()):
            yield f"{crate}: {', '.join(sorted(p for p, _ in shared))} in {len(fns)} functions"


def point_6():
    """Buffers with a length or a place beside them, and parallel arrays."""
    for fn, name, start, signature, _, _ in ALL:
        if re.search(r"(\w+): (?:\[\w+; \d+\]|&(?:mut )?\[f64\]), (?:m|n|count): usize|text: &mut \[u8; \d+\],\s+at: usize|piece: &(?:mut )?\[[^\]]*\],\s+pending: usize", signature):
            yield f"{place(name, start)} fn {fn}"
    yield from found(r"^    pub (\w+): \[\w+; (\d+)\],\n    pub \w+: \[\w+; \2\],$")


def point_7():
    """A switch on which step to run: chains of tests of one letter or number."""
    for fn, name, start, _, _, body in ALL:
        if len(re.findall(r"if (?:letter|task) ==", body)) > 1 or re.search(r"letter == .*\|\| letter ==", body):
            yield f"{place(name, start)} fn {fn}"


def point_8():
    """Proofs that walk the code by hand."""
    for name in sorted(glob.glob("crates/*/proofs/**/Proof.antt", recursive=True)):
        yield f"{name[7:]} {open(name).read().count(chr(10))} lines"


def main():
    wanted = [a for a in sys.argv[1:] if a.isdigit()] or [str(n) for n in range(1, 9)]
    for number in wanted:
        point = globals()[f"point_{number}"]
        places = list(point())
        crates = collections.Counter(re.match(r"\w+", line).group(0) for line in places)
        print(f"{number}: {len(places)}  {point.__doc__}")
        print("   ", ", ".join(f"{crate} {count}" for crate, count in sorted(crates.items())))
        if "--names" in sys.argv:
            for line in places:
                print("   ", line)


main()
