#!/usr/bin/env python3
"""Spells the repository's own definitions and lemmas in snake case, as today's Rattle does; types, facts and modules keep their capitals.

usage: tools/respell.py [--names]

Run once, at the top, right after port.py. Functions of src/, C names, strings, inputs and outputs keep their names.
--names prints each old name with its new one, and names that would fall together, and writes nothing.

A dash in a name becomes an underscore, but for one behind or before a part with a capital, which names a type.
In the proof of a function the names that Rattle makes follow the source's spelling.
"""

import collections
import glob
import os
import re
import sys

DECLARED = re.compile(r"(?m)^(?:pub +|abbrev +|unfoldable +|data +|record +|ruleset +)*([^\s(){}.;,@\"«»:=]+)(?: *[({][^\n]*?[)}])* +:(?=\s)")
INNER = re.compile(r"(?m)^ +(?:pub +|abbrev +|unfoldable +)*([a-z][^\s(){}.;,@\"«»:=]*) :(?=\s)")
HEAD = re.compile(r"^(?:pub +|abbrev +|unfoldable +)*(data|record|module)\b")
MADE = re.compile(r"Need-|InvT|MeasureT|invariant-|decreases-")
TOKEN = re.compile(r"[^\s(){}.;,@\"«»\[\]`]+")
IDENT = re.compile(r"\b[a-z][a-z0-9]*(?:_[a-z0-9]+)+\b")
OWN = re.compile(
    r"(?<![^-+.])(overflow-(?:add|sub|mul|shl|shr|cast|step)|nonzero-(?:div|rem)|(?:offset|slice)-bounds|(?:invariant|shape)-of"
    r"|type-inv|len-below|len-at-least|[iI]n-(?:default|ok|err)|items-fit|array-long|element-fits)(?![^-+.'])"
)

USE = re.compile(r"(?m)^(?:ghost )?use ([^\s{]+)\.\{([^}]*)\}")


def files(*patterns):
    return sorted(f for p in patterns for f in glob.glob(p, recursive=True) if "/out/" not in f)


def lemma_files():
    return files("crates/*/specs/**/*.antt", "crates/*/proofs/*.antt")


def function_files():
    return [f for f in files("crates/*/proofs/**/*.antt") if f.count("/") > 3]


def text_of(path):
    with open(path, encoding="utf-8") as it:
        return it.read()


def declared(text):
    """The names that a file of definitions and lemmas declares: at its margin, and the fields and constructors below a record or data."""
    names = [m[1] for m in DECLARED.finditer(text)]
    inside = False
    for line in text.split("\n"):
        if line[:1] not in (" ", ""):
            inside = bool(HEAD.match(line))
            section = line.startswith("module")
        elif inside and (m := INNER.match(line)):
            names.append(m[1])
    return names


def turned(name):
    if name[:1].isupper() or not re.match(r"[a-z]", name):
        # a lemma on a type keeps the dash behind the type's name
        head, dash, rest = name.partition("-")
        return head + dash + turned(rest) if dash and re.match(r"[a-z]", rest) else name
    words = re.sub(r"(?<=[a-z0-9])[A-Z]|(?<=[A-Z])[A-Z](?=[a-z])", lambda m: "_" + m[0].lower(), name)
    return re.sub(r"(?<=[\w₀-₉'])-(?=[a-z0-9])", "_", words)


def table():
    """Each old name with its new one. Of two that would fall together the lemma gets the ending that a lemma on a word of its name has."""
    names, words = set(), set()
    for f in lemma_files():
        text = text_of(f)
        names.update(declared(text))
        words.update(m[1] for m in re.finditer(r"(?m)^(?:abbrev|unfoldable) (?:pub )?(\S+) ", text))
    for f in function_files():
        for line in text_of(f).split("\n"):
            m = DECLARED.match(line)
            if m and not MADE.search(line) and not re.search(r": *(?:tie|need|goal)\.|statement", line):
                names.add(m[1])
    to = {n: turned(n) for n in names if turned(n) != n}
    back = collections.defaultdict(set)
    for n in names:
        back[to.get(n, n)].add(n)
    for new, old in back.items():
        if len(old) < 2:
            continue
        kept = [n for n in old if n in words] or [n for n in old if re.search("[A-Z]", n)]
        if len(kept) != 1:
            raise SystemExit(f"two words: {new} {sorted(old)}")
        for n in old - set(kept):
            to[n] = new + "_lem"
    return to, names


# Names that are in snake case already, and would meet a word that becomes so in the same file: lemmas, and what a proof calls a step.
MET = {"in_order": "in_order_lem", "key_fits": "key_fits_lem", "reads_on": "reads_on_lem", "missed_by": "missed_by_lem", "same_bit": "same_bit_lem"}
STEPS = {"word_in": "word_in_call", "word_of": "word_of_call", "place_of": "place_of_call", "head_in": "head_in_call"}


def apart(text, of):
    """Renames them where they stand behind no dot, and are the file's own."""
    return re.sub(r"(?<![\w.'-])(?:" + "|".join(of) + r")(?![\w'-])", lambda m: of[m[0]], text)


def from_libraries(text):
    """The names that a file has from a library that is no crate of this repository."""
    own = {f"Rattle.{c}" for c in os.listdir("crates")}
    return {n.strip().split(" as ")[0] for m in USE.finditer(text) if not any((m[1] + ".").startswith(o + ".") for o in own) for n in m[2].split(",")}


def sources():
    return "\n".join(text_of(f) for f in files("crates/*/src/**/*.rt"))


def clashes(to, names):
    """What has a new name already: a field, a variable or a constant of the source, and names of another kind in the files that have the old one."""
    source = sources()
    fields = set(re.findall(r"\b([a-z]\w*):(?!:)", source)) | set(re.findall(r"\blet (?:mut )?([a-z]\w*)", source))
    for old, new in sorted(to.items()):
        if new in fields:
            yield "the source has it:", old, new
    for f in lemma_files() + function_files():
        text = re.sub(r"(?m)--.*$", "", text_of(f))
        bare = set(re.findall(r"(?<![^\s(){},;@«])[^\s(){}.;,@\"«»\[\]`]+(?!\.\w)", text))
        for old, new in sorted(to.items()):
            if old in bare and new in bare:
                yield f, old, new


def respelled(text, to):
    return TOKEN.sub(lambda m: to.get(m[0], m[0]), text)


def dotted_comment(text, to):
    """In comments and pages a name stands in backticks or behind a dot."""
    def inside(m):
        return TOKEN.sub(lambda t: to.get(t[0], t[0]), m[0])

    return re.sub(r"`[^`\n]*`", inside, text)


def in_code(text, to, comment):
    """Turns the code of a file, and of its comments what stands in backticks."""
    out = []
    for line in text.split("\n"):
        at = re.search(comment, line)
        if at:
            out.append(respelled(line[: at.start()], to) + dotted_comment(line[at.start() :], to))
        else:
            out.append(respelled(line, to))
    return "\n".join(out)


def clauses(text, to):
    """In a source file: clauses, ghost items and backticks in comments."""
    out, depth = [], 0
    for line in text.split("\n"):
        if re.match(r"\s*//", line):
            out.append(dotted_comment(line, to))
        elif line.startswith("ghost use") or depth or re.match(r"\s*(requires|ensures|ghost)\b", line):
            out.append(respelled(line, to))
            if not line.startswith("ghost use"):
                depth += line.count("{") - line.count("}")
        else:
            out.append(line)
    return "\n".join(out)


def by_source(text, words):
    """In the proof of a function: names that Rattle makes, spelled as the source spells them."""

    def turn(m):
        t = OWN.sub(lambda o: o[0].replace("-", "_"), m[0])
        return words[0].sub(lambda w: words[1][w[0]], t) if words else t

    text = re.sub(r"(?m)^(pub )?([^\s:]+)-spec(?= [:=])", lambda m: (m[1] or "") + m[2].replace("-", "_") + "_spec", text)
    text = re.sub(r"(?<![\w'-])(?:c|w|l|tie|goal|need)(?:\.[^\s(){}.;,@\"«»\[\]]+)+", turn, text)
    if words:
        text = re.sub(r"(?<=\.)([a-z][a-z0-9]*(?:-[a-z0-9]+)+)(?![\w'-])", lambda m: words[1].get(m[1], m[1]), text)
    return text


def write(path, old, new):
    if new != old:
        with open(path, "w", encoding="utf-8") as it:
            it.write(new)
        print(path)


def main():
    to, names = table()
    if sys.argv[1:] == ["--names"]:
        for old, new in sorted(to.items()):
            print(old, new)
        for it in clashes(to, names):
            print("clash:", *it)
        return
    for crate in sorted(os.listdir("crates")):
        idents = sorted(set(IDENT.findall("\n".join(text_of(f) for f in files(f"crates/{crate}/src/**/*.rt")))), key=len, reverse=True)
        dashed = {i.replace("_", "-"): i for i in idents}
        words = (re.compile(r"(?<![A-Za-z0-9_])(?:" + "|".join(map(re.escape, dashed)) + r")(?![A-Za-z0-9_])"), dashed) if dashed else None
        for f in files(f"crates/{crate}/specs/**/*.antt", f"crates/{crate}/proofs/**/*.antt"):
            old = new = text_of(f)
            if f.count("/") > 3 and "/proofs/" in f:
                new = by_source(new, words)
                old_words = {k: v for k, v in STEPS.items() if re.search(rf"(?<![\w.'-])(?:let {k} )", new)}
                new = apart(new, old_words) if old_words else new
            else:
                new = "\n".join(l if l.startswith("--") else apart(l, MET) for l in new.split("\n"))
            theirs = from_libraries(new)
            write(f, old, in_code(new, {o: n for o, n in to.items() if o not in theirs}, "--"))
        for f in files(f"crates/{crate}/src/**/*.rt"):
            old = text_of(f)
            write(f, old, clauses(old, to))
        for f in files(f"crates/{crate}/must-fail/*.edit"):
            old = text_of(f)
            lines = [respelled(l, to) if re.match(r"(old|new):", l) and "file: src" not in old else l for l in old.split("\n")]
            write(f, old, "\n".join(lines))
    for f in files("README.md", "docs/*.md"):
        old = text_of(f)
        write(f, old, dotted_comment(old, to))


if __name__ == "__main__":
    main()
