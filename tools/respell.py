#!/usr/bin/env python3
"""Brings the repository's own definitions, lemmas and fields to today's spelling: words in snake case, modules of specs/ in camel case.

usage: tools/respell.py [--check]      at the top of the repository, once, after port.py

Rust's own names, strings and numbers stay. A name that the kit's library has too stays. Names that would fall together are printed, and keep a mark.
"""

import collections
import os
import re
import sys

KIT = "/opt/rattle/rattle"
NAME = r"[^\W\d][\w'\-]*"
TOKEN = re.compile(NAME)
FOLDERS = {"claims": "Claims", "inner": "Inner", "cases": "Cases"}
# Names that would fall together with another: chosen by hand.
CHOSEN = {"nonZero": "all_non_zero", "valueLength": "length_of_value"}
# Lemmas that port.py gave the name of a definition, by the folder in which they stand.
LEMMAS = {"draugsten_replay": "counts_of", "month_table": "digit_value", "indices": "good_length", "calls": "handed_out"}


def walk(root, ends):
    for folder, dirs, files in os.walk(root):
        dirs[:] = sorted(d for d in dirs if d not in ("out", ".git", "target", "node_modules"))
        for f in sorted(files):
            if f.endswith(ends):
                yield os.path.join(folder, f)


def read(path):
    with open(path, encoding="utf-8") as f:
        return f.read()


def snake(name):
    """The name in snake case: `untilNul` is `until_nul`, `be16Bytes` `be16_bytes`, `reads-back` `reads_back`."""
    out = re.sub(r"(?<=[a-z0-9])([A-Z])", lambda m: "_" + m.group(1).lower(), name) if name[0].islower() else name
    return re.sub(r"(?<=[\w'])-(?=\w)", "_", out)


def is_odd(name):
    return name != snake(name)


def code_of(text):
    return re.sub(r"(?m)--.*$", "", text)


DECLARED = [
    re.compile(r"(?m)^\s*(?:(?:pub|abbrev|unfoldable|opaque|instance|private|irreducible)\s+)*((?:%s\s+)*%s)\s*:(?=\s|$)" % (NAME, NAME)),
    re.compile(r"(?m)^\s*(?:(?:pub|abbrev|unfoldable)\s+)*(?:record|data|ruleset)\s+(%s)" % NAME),
    re.compile(r"\blet\s+(%s)\s*[:=]" % NAME),
    re.compile(r"(?m)^\s*(?:(?:pub|abbrev|unfoldable)\s+)+(%s)\b" % NAME),
]


def declared(text):
    found = set()
    code = code_of(text)
    for pattern in DECLARED:
        for m in pattern.finditer(code):
            found.update(n for n in m.group(1).split() if is_odd(n))
    return found


def imports(text, own):
    """The names that a file brings in from the repository's own crates, and those from elsewhere."""
    mine, others = set(), set()
    for m in re.finditer(r"(?m)^\s*(?:pub )?(?:ghost )?use ([^\s{]+?)\.?(?:\{([^}]*)\}|(?: as (\S+))?)\s*;?$", text):
        path, names = m.group(1), m.group(2) or ""
        parts = path.split(".")
        into = mine if parts[0] == "Rattle" and len(parts) > 1 and parts[1] in own else others
        for n in re.split(r"[,\s]+", names):
            into.add(n)
    return mine, others


def main(argv):
    own = {c for c in os.listdir("crates") if os.path.isdir(os.path.join("crates", c))}
    antt = list(walk("crates", ".antt"))
    texts = {p: read(p) for p in antt}
    everything = set()
    for p in antt:
        everything |= declared(texts[p])
    kit = set()
    for p in walk(KIT, ".antt"):
        kit.update(n for n in TOKEN.findall(code_of(read(p))) if n in everything)
    made = {n for n in everything if re.match(r"Need-|After-|Then-|Else-|At-|Start$", n)}
    both = everything & kit
    mapping = {n: CHOSEN.get(n, snake(n)) for n in everything - made - both}
    # camel case names are never the kit's: those that it has too are other words there
    for n in both:
        if n[0].islower() and re.search(r"[a-z0-9][A-Z]", n):
            mapping[n] = CHOSEN.get(n, snake(n))
    print(f"respell: {len(mapping)} names of {len(everything)}; {len(both - set(mapping))} stand in the kit too and stay")
    # a lemma that would have the name of a definition, or of a function of its crate, says that it is a lemma
    words_of = collections.defaultdict(set)
    for p in walk("crates", ".rt"):
        words_of[p.split(os.sep)[1]].update(re.findall(r"\bfn (\w+)", read(p)))
    everywhere = set().union(*words_of.values())
    taken = {snake(n) for n in mapping if "-" not in n} | everywhere
    plain = set()
    for p in antt:
        plain |= set(TOKEN.findall(code_of(texts[p])))
    for n in mapping:
        if "-" in n and n not in CHOSEN and (mapping[n] in taken or mapping[n] in plain):
            mapping[n] += "_claim" if any(n in declared(texts[p]) for p in antt if "/specs/" in p) else "_lem"
    # names that fall together
    back = collections.defaultdict(set)
    for old, new in mapping.items():
        back[new].add(old)
    seen = collections.defaultdict(set)
    for p in antt:
        for n in TOKEN.findall(code_of(texts[p])):
            seen[n].add(p)
    for new in sorted(back):
        olds = set(back[new]) | ({new} if new in seen else set())
        if len(olds) > 1:
            for a in sorted(olds):
                for b in sorted(olds):
                    if a < b and seen[a] & seen[b]:
                        print(f"together: {a} and {b} are {new} in {sorted(seen[a] & seen[b])[:3]}")
    rt = list(walk("crates", ".rt"))
    for p in rt:
        text = read(p)
        for n in set(TOKEN.findall(text)):
            if n in mapping and re.search(r"(?<![\w'-])%s: " % re.escape(mapping[n]), text):
                print(f"rust: {n} is {mapping[n]}, a name that {p} has already")
    if "--check" in argv:
        return 0

    def turned(text, stays, keep_strings=False):
        def one(m):
            n = m.group(0)
            return n if n in stays else mapping.get(n, n)

        def line(l):
            if keep_strings:
                parts = re.split(r'("(?:[^"\\]|\\.)*")', l)
                return "".join(q if k % 2 else TOKEN.sub(one, q) for k, q in enumerate(parts))
            return TOKEN.sub(one, l)

        out = []
        for l in text.split("\n"):
            mark = "//" if keep_strings else "--"
            k = l.find(mark)
            if k < 0:
                out.append(line(l))
            else:
                comment = re.sub(r"`[^`]*`", lambda m: TOKEN.sub(one, m.group(0)), l[k:])
                out.append(line(l[:k]) + comment)
        return "\n".join(out)

    folders = re.compile(r"(Rattle\.(?:%s)\.specs\.)(claims|inner|cases)\b" % "|".join(sorted(own)))

    def with_folders(text):
        return folders.sub(lambda m: m.group(1) + FOLDERS[m.group(2)], text)

    for c, name in LEMMAS.items():
        for p in walk(f"crates/{c}/proofs", ".antt"):
            text = read(p)
            new = re.sub(r"(?<![\w'.-])%s(?![\w'-])" % name, name + "_lem", text)
            if new != text:
                with open(p, "w", encoding="utf-8") as f:
                    f.write(new)
    for p in antt + rt:
        text = read(p)
        mine, others = imports(text, own)
        here = declared(text) if p.endswith(".antt") else set()
        stays = {n for n in others - mine - here if n in mapping}
        new = with_folders(turned(text, stays, p.endswith(".rt")))
        if p.endswith(".antt") and "/specs/" in p:
            new = re.sub(r"(?m)^(\s*(?:pub )?mod )(claims|inner|cases)$", lambda m: m.group(1) + FOLDERS[m.group(2)], new)
        if new != text:
            with open(p, "w", encoding="utf-8") as f:
                f.write(new)
    for c in sorted(own):
        for low, up in FOLDERS.items():
            for path in (f"crates/{c}/specs/{low}.antt", f"crates/{c}/specs/{low}"):
                if os.path.exists(path):
                    os.rename(path, path.replace(f"specs/{low}", f"specs/{up}"))
    for p in walk("crates", ".edit"):
        text = read(p)
        new = turned(text, set())
        new = re.sub(r"(?m)^(file: specs/)(claims|inner|cases)/", lambda m: m.group(1) + FOLDERS[m.group(2)] + "/", new)
        if new != text:
            with open(p, "w", encoding="utf-8") as f:
                f.write(new)
    with open("tools/respelled.txt", "w", encoding="utf-8") as f:
        f.writelines(f"{a} {b}\n" for a, b in sorted(mapping.items()))
    return 0


if __name__ == "__main__":
    raise SystemExit(main(sys.argv[1:]))
