#!/usr/bin/env python3
"""Brings this repository's own definitions and lemmas to the spelling of today's Rattle: words in snake case, joined by underscores.

usage: python3 tools/respell.py [--try]      at the top of the repository, once, after the kit's own port.py

Renamed are the names that a file of specs/ or proofs/ declares (definitions, lemmas, fields, constructors, names under `where`) and
variables in camel case: `wordsFrom` becomes `words_from`, `built-in-order` becomes `built_in_order`. As they are stay types and facts
(they begin with a capital letter), names of the library, and what a function's proof file names after one of its goals. In comments and
pages names are looked for between backticks. Functions and types of src/, strings, inputs and outputs keep their names.
It stops, and writes nothing, where two names would fall together in one file. --try only says what it would do.
"""

import os
import re
import sys

WORD = re.compile(r"(?<![\w'′₀-₉-])([A-Za-z_ℕ≤≢≡+*∸][\w'′≤≢≡ℕ₀-₉]*(?:-[\w'′≤≢≡ℕ₀-₉]+)*)")
DECLARED = re.compile(r"^(?:(?:abbrev|unfoldable) )*(?:pub )?([a-z][^ .(){},;]*)(?: *:|$)")
INNER = re.compile(r"^ +(?:pub )?([a-z][^ .(){},;]*) :( |$)")
PAGES = ["README.md", "docs", "host", "examples", "include", ".ci"]

# lemmas that have the name of what they speak of, here or in the library, beside those that `main` finds
BY_HAND = {"too_large": "too_large_lem", "joined_to": "joined_to_lem", "is-nan": "is_nan_lem"}

# names that the kit's port.py turned already in crates/, but not in edits and pages, since a library had the same spelling
TURNED = """
above-most add-at all-left at-byte at-high at-low at-mark at-most at-none both-zero by-code by-tests capacity-spec choose-spec column-again
compare-same count-kept count-most decodeWords each-both endOf every-inserted false-left false-right fields-value fill-spec fraction-end
frameOf from-byte held-below in-order in-words joined-to kept-and kept-append kept-line kept-whole keyOf last-turn le-down left-out left-r
length-more length-spec lineOf lines-next lines-none load-kept load-spec loadOf lowBytes main-spec nanBits new-spec no-cover no-fraction
none-from none-left none-of none-passed numberAt numberOf one-line one-more one-of one-same order-below orderOf out-of-range over-last
over-none parts-next pass-spec placeOf put-spec readingOf run-at run-spec same-answer same-digits same-length same-place same-sum same-test
same-total spotOf start-spec startAt startBy step-spec store-spec stored-last sum-less sum-same sum-step sumOf sums-next sums-none too-large
too-long too-many too-short totalOf up-le value-spec valueAt valueOf values-length values-same valuesOf wayOf whole-length wholeOf
word-value wordBytes write-spec zero-at-most
"""


def camel(part):
    part = re.sub(r"([a-z0-9])([A-Z])", r"\1_\2", part)
    return re.sub(r"([A-Z]+)([A-Z][a-z])", r"\1_\2", part).lower()


def snake(name):
    if name in BY_HAND:
        return BY_HAND[name]
    return "_".join(camel(p) if re.match(r"[A-Za-z0-9]", p) else p for p in name.split("-"))


def files(*endings):
    for folder, dirs, names in os.walk("crates"):
        dirs[:] = sorted(d for d in dirs if d != "out")
        for n in sorted(names):
            if n.endswith(endings):
                yield os.path.join(folder, n)


def read(path):
    with open(path, encoding="utf-8") as f:
        return f.read()


def pieces(text, comment):
    """The text in pieces (kind, piece): code, note (a comment) and text (a string)."""
    form = re.compile(r'("(?:\\.|[^"\\])*")|(' + comment + r"[^\n]*)", re.S)
    at = 0
    for m in form.finditer(text):
        yield "code", text[at : m.start()]
        yield ("text" if m.group(1) else "note"), m.group(0)
        at = m.end()
    yield "code", text[at:]


def code_of(path):
    return "".join(p for k, p in pieces(read(path), "--") if k == "code")


def taken(code):
    """The names that a file imports from elsewhere than this repository."""
    out = set()
    for m in re.finditer(r"^(?:ghost )?use ([\w.+]+)\.\{([^}]*)\}", code, re.M):
        path = m.group(1).split(".")
        if path[0] != "Rattle" or not os.path.isdir(os.path.join("crates", path[1])):
            out |= {w.strip() for w in m.group(2).split(",")}
    return out


def declared(path, code):
    """The names that a file declares, without those that are named after a goal."""
    out = set()
    of_function = "/proofs/" in path and path.count("/") > 3
    for line in code.split("\n"):
        m = DECLARED.match(line) or INNER.match(line)
        if not m or m.group(1) in ("mod", "use", "record", "data", "where", "unfolding", "infix", "open"):
            continue
        if of_function and re.search(r": *tie\.", line):
            continue
        if of_function and line.startswith(m.group(1)) and re.search(r"^" + re.escape(m.group(1)) + r" : tie\.", code, re.M):
            continue
        out.add(m.group(1))
    return out


def goals(path, code):
    """The names that a function's proof file gives after its goals."""
    if not ("/proofs/" in path and path.count("/") > 3):
        return set()
    return set(re.findall(r"^(?:abbrev )?(?:pub )?([a-z][^ ]*) : *tie\.", code, re.M))


def renamed(code, names, kept, steps=True, fields=()):
    def one(m):
        w = m.group(1)
        if w not in names or w in kept:
            return m.group(0)
        before = code[: m.start()]
        # a member of a module that Rattle makes, or a step or a field that it names
        if before.endswith(".") and ("-" in w and (steps or not re.search(r"\b[A-Z]\w*\.$", before) and w not in fields) or re.search(r"\b(tie|lts|goal)\.$", before)):
            return m.group(0)
        return names[w]

    return WORD.sub(one, code)


def main():
    own, everywhere, fields, per_file = set(), set(), set(), {}
    for path in files(".antt"):
        code = code_of(path)
        per_file[path] = code
        own |= declared(path, code)
        everywhere |= set(WORD.findall(code))
        bound = set(re.findall(r"\blet ([a-z][\w'-]*) [:=]", code))
        own |= bound - taken(code) - goals(path, code)
        fields |= set(re.findall(r"(?m)^  +(?:pub )?([a-z][\w'-]*-[\w'-]*) :", code))
    own |= {w for w in everywhere if re.match(r"[a-z][\w']*[A-Z]", w) and "-" not in w}
    names = {w: snake(w) for w in own if snake(w) != w and w[0].islower()}
    # a lemma that would have its function's name gets `_lem`
    functions = {n for w, n in names.items() if "-" not in w}
    names |= {w: n + "_lem" for w, n in names.items() if "-" in w and n in functions}
    bad = 0
    outside = set()
    for path, code in per_file.items():
        lib = taken(code)
        outside |= lib
        # without paths, and without steps and fields: a name falls together with none of those
        words = set(WORD.findall(re.sub(r"(?m)^use [\w.+]+|\.[a-z_][\w-]*|[{\n;] *[a-z_]+ = ", " ", code)))
        kept = lib | goals(path, code)
        now = {}
        for w in words:
            new = names[w] if w in names and w not in kept else w
            now.setdefault(new, set()).add(w)
        for new, old in now.items():
            if len(old) > 1:
                print(f"fall together in {path}: {new}: {sorted(old)}")
                bad += 1
    back = {}
    for w, new in names.items():
        back.setdefault(new, set()).add(w)
    for new, old in sorted(back.items()):
        if len(old) > 1:
            print(f"two names become {new}: {sorted(old)}")
        elif new in own:
            print(f"{new} stands beside {sorted(old)}")
    # a word that code has too is renamed only where it is declared
    here = {w: {p for p, code in per_file.items() if w in declared(p, code)} for w in BY_HAND if "-" not in w}
    general = {w: n for w, n in names.items() if w not in here}
    around = general | {w: snake(w) for w in TURNED.split()}
    if "--try" in sys.argv:
        print(len(names), "names;", bad, "fall together")
        for w in sorted(names):
            print(w, names[w])
        return 0
    if bad:
        return 1
    changed = 0
    for path in list(files(".antt", ".rt", ".edit")) + list(pages()):
        text = read(path)
        if path.endswith(".antt"):
            kept = taken(per_file[path]) | goals(path, per_file[path])
            steps = "/proofs/" in path and path.count("/") > 3
            local = general | {w: n for w, n in names.items() if path in here.get(w, ())}
            new = "".join(renamed(p, local, kept, steps, fields) if k == "code" else quoted(p, around | local) if k == "note" else p for k, p in pieces(text, "--"))
        elif path.endswith(".rt"):
            kept = taken(text)
            only = {w: n for w, n in general.items() if "-" not in w}
            new = "".join(renamed(p, only, kept) if k == "code" else quoted(p, around) if k == "note" else p for k, p in pieces(text, "//"))
        elif path.endswith(".edit"):
            only = {w: n for w, n in around.items() if "-" not in w}
            new = "".join(line if line.startswith("#") else renamed(line, only, set()) for line in text.splitlines(keepends=True))
        else:
            new = quoted(text, around)
        if new != text:
            changed += 1
            with open(path, "w", encoding="utf-8") as f:
                f.write(new)
    print(f"respell: {len(names)} names, {changed} files")
    return 0


def quoted(text, names):
    """Names between backticks; a name in camel case anywhere."""
    text = re.sub(r"`([^`\n]+)`", lambda m: "`" + (m.group(1) if "/" in m.group(1) or m.group(1).startswith("--") else renamed(m.group(1), names, set())) + "`", text)
    return text


def pages():
    for top in PAGES:
        if os.path.isfile(top):
            yield top
        for folder, dirs, found in os.walk(top):
            dirs[:] = sorted(d for d in dirs if d not in ("target", "lib", "out"))
            for n in sorted(found):
                if n.endswith((".md", ".rs", ".h", ".c", ".sh")) and n not in ("PORT.md", "PORT-OTHER.md"):
                    yield os.path.join(folder, n)


if __name__ == "__main__":
    sys.exit(main())
