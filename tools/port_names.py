#!/usr/bin/env python3
"""Brings the repository's own definitions and lemmas to today's spelling, once, right after port.py.

Words are in snake case: a camel-case name of a definition, a field or a variable is turned. A dash joins
two names and nothing else: a lemma's dash stays where both sides are names that can be cited, and is an
underscore where a side is a plain word. Names of types, of src/, of generated steps and goals stay.

    python3 tools/port_names.py          renames, at the top of the repository
    python3 tools/port_names.py --list   prints old and new names, and names that fall together
"""
import os
import re
import subprocess
import sys

CAMEL = re.compile(r"(?<![\w'′-])[a-z][a-z0-9]*(?:[A-Z][a-z0-9]*)+(?![\w'′])")
NAME = r"[A-Za-z_][\w'′₀-₉]*(?:-[\w'′₀-₉]+)+"
# a name declared: at the head of a line, `name :` or `pub name :`
DECLARED = re.compile(r"^\s*(?:abbrev |unfoldable )?(?:pub )?(" + NAME + r") :(?!:)", re.M)
# a lemma, also behind an alias of its module; and a field of this repository's own records
TOKEN = re.compile(r"(?:(?<![\w'′.-])|(?<=\b[A-Z]\.))" + NAME)
FIELD = re.compile(r"(?<=\.)" + NAME)
# std's functions and words that lemmas of this repository speak of by name
FIRST = {"length", "get_or", "replicate", "encode", "decode"}
STD = {"length", "take", "drop", "set", "get_or", "append", "replicate", "map", "eqb", "leb", "ltb", "cond", "div", "mod"}
# what would fall together with a field, a lemma, an alias or a tactic gets a name of its own
SPECIAL = {"inPlace": "is_in_place", "atSetup": "setup_stage", "append-lines": "append_lines_lem", "first-of": "first_sum_is", "second-of": "second_sum_is",
    "first_of": "first_sum_of", "second_of": "second_sum_of"}
# made by the check, and so never ours
MADE = re.compile(r"^(?:Need|invariant|decreases|returns|loop)-|-spec$|-requires(?:-\d+)?$")


def files():
    out = subprocess.check_output(["git", "ls-files", "-co", "--exclude-standard"], text=True).split("\n")
    return [f for f in out if f and os.path.exists(f)]


def snake(name):
    return re.sub(r"[A-Z]", lambda m: "_" + m.group(0).lower(), name)


def defined(texts):
    """The definitions of specs/, under their new names."""
    found = set()
    for f, t in texts.items():
        if re.match(r"crates/\w+/specs/\w+\.antt$", f):
            for m in re.finditer(r"^\s*(?:abbrev |unfoldable )?pub (?:record |data )?([A-Za-z_][\w'′]*) ", t, re.M):
                found.add(snake(m.group(1)) if m.group(1)[0].islower() else m.group(1))
    return found


def joined(name, names):
    """A lemma's name with a dash only between two names: what comes first is a list's word, a codec's or a type."""
    parts = [snake(p) if p[0].islower() else p for p in name.split("-")]
    out = parts[0]
    for before, p in zip(parts, parts[1:]):
        two = p in names and (before in FIRST or before[0].isupper())
        out += ("-" if two else "_") + p
    return out


def main():
    texts = {}
    for f in files():
        if re.match(r"crates/\w+/.*\.(antt|rt|edit)$", f) or re.match(r"(docs/\w+|README|rehearsals/README|twin/README|firmware/README)\.md$", f):
            texts[f] = open(f, encoding="utf8").read()
    source = {f: t for f, t in texts.items() if f.startswith("crates/")}
    names = defined(source) | STD
    camel = set()
    for t in source.values():
        camel |= set(CAMEL.findall(t))
    lemmas = set()
    for f, t in source.items():
        if re.match(r"crates/\w+/(specs|proofs)/\w+\.antt$", f):
            lemmas |= {n for n in DECLARED.findall(t) if not MADE.search(n)}
    # a local name of a function's proof that shadows a generated one is left to the conversion of that proof
    to = {c: snake(c) for c in camel}
    for n in sorted(lemmas):
        new = joined(n, names)
        if new != n:
            to[n] = new
    to.update(SPECIAL)
    to.update({snake(old): new for old, new in to.items() if "-" in old})
    # what falls together with another name, as `zero-at` and `zeroAt`, is a lemma that would have its function's name
    words = set()
    for t in source.values():
        words |= set(re.findall(r"(?<![\w'′-])[A-Za-z_][\w'′]*(?:-[\w'′]+)*", t))
    for n in sorted(lemmas):
        if n in to and to[n] in names:
            to[n] += "_lem"
    back = {}
    for old, new in to.items():
        back.setdefault(new, set()).add(old)
    clash = {new: olds for new, olds in back.items() if len(olds) > 1 or (new in words and new not in olds)}
    if "--list" in sys.argv:
        for old in sorted(to):
            print(old, to[old])
        print("-- fall together")
        for new in sorted(clash):
            print(new, *sorted(back[new]), "(exists)" if new in words else "")
        return
    if os.path.exists("docs/PORT.md"):
        sys.exit("port_names: docs/PORT.md says that this was done")
    for f, t in texts.items():
        def dash(m):
            return to.get(m.group(0), m.group(0))

        if f.startswith("crates/"):
            new = CAMEL.sub(lambda m: to[m.group(0)], t)
            new = re.sub(r"(?<![\w'′-])(first_of|second_of)(?![\w'′-])", lambda m: to[m.group(1)], new)
        else:
            new = CAMEL.sub(lambda m: to.get(m.group(0), m.group(0)), t)
        if not f.endswith(".rt") and not f.endswith(".edit"):
            # fields and variables inside a dashed name, as `has-setOf`, are turned with the whole
            if re.match(r"crates/\w+/(specs|proofs)/\w+\.antt$", f):
                new = FIELD.sub(dash, new)
            new = TOKEN.sub(dash, new) if f.startswith("crates/") else re.sub(r"`(" + NAME + r")`", lambda m: "`" + to.get(m.group(1), m.group(1)) + "`", new)
        if new != t:
            open(f, "w", encoding="utf8").write(new)


main()
