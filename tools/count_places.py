#!/usr/bin/env python3
"""Lists the places in crates/*/src that a plainer form of Rust would better, as file:line, and counts them.

usage: python3 tools/count_places.py PART..     at the repository's top; PART is a point, 1 to 7, or one part of it, as 1a
"""
import glob
import itertools
import re
import sys
from collections import defaultdict

# Enums that say why something is refused, as a Result's error would, and the variants that carry one.
ERRORS = {"Refusal", "Fault"}
REFUSED = "(?:Refused|Malformed|Broken)"
# Read and found right: figures that hold whatever the verdict beside them says, and a match on kinds that hold different data.
RIGHT = {"Explained", "Stages", "convert_at_flow"}
NUMBERS = {"u32", "u64", "usize"}
KEYWORDS = "if else match for in while loop let mut return break continue as true false".split()
# Bodies of max, min, saturating_sub, div_ceil, contains, from_le_bytes, copy_from_slice, to_le_bytes, is_finite, u64::from.
STANDARD = (r"if (\w+) <=? (\w+) \{\s*(?:\1|\2)\s*\} else \{\s*(?:\1|\2)\s*\}|if (\w+) < (\w+) \{ 0 \} else \{ \3 - \4 \}|\+ \((\w+) - 1\)\) / \5"
    r"|\((\w+) <= (\w+)\) & \(\7 <= \w+\)|0x100_0000 \* |\w+\[[^\]]+\] = \w+\[i\];|\(rest % 256\) as u8|< f32::from_bits\(0x7f80_0000|\{\s*\w+ as \w+\s*\}")

def blank(text):
    """The text without its comments, attributes and texts, each replaced by blanks, so that places stay."""
    text = re.sub(r"//[^\n]*|#\[[^\]]*\]", lambda m: " " * len(m.group()), text)
    return re.sub(r'"(?:\\.|[^"\\])*"', lambda m: '"' + re.sub(r"[^\n]", " ", m.group()[1:-1]) + '"', text, flags=re.S)

def past(text, i):
    depth = 0  # past the bracket that closes the one at i
    for k in range(i, len(text)):
        depth += (text[k] in "({[") - (text[k] in ")}]")
        if depth == 0:
            return k + 1

def split(text, mark=","):
    """The parts of a text between the marks that stand in no bracket; < and > are brackets in Rust alone."""
    parts, depth, last = [], 0, 0
    opening, closing = ("({[<", ")}]>") if mark == "," else ("({[", ")}]")
    for k, c in enumerate(text):
        depth += (c in opening) - (c in closing)
        if depth == 0 and c == mark:
            parts.append(text[last:k])
            last = k + 1
    return [" ".join(p.split()) for p in parts + [text[last:]] if p.strip()]

class Place:
    def __init__(self, file, text, at, name):
        self.file, self.text, self.at, self.name = file, text, at, name
    def line(self, at):
        return f"{self.file}:{self.text.count(chr(10), 0, at) + 1}: {self.name}"

enums, structs, functions = [], [], []
for file in sorted(glob.glob("crates/*/src/**/*.rt", recursive=True)):
    with open(file, encoding="utf-8") as f:
        text = blank(f.read())
    for m in re.finditer(r"\b(enum|struct) (\w+)(?:<[^{]*>)? \{", text):
        p = Place(file, text, m.start(), m.group(2))
        inner = text[m.end() : past(text, m.end() - 1) - 1]
        if m.group(1) == "enum":
            # each variant's name, and what it carries, or ""
            p.variants = [re.match(r"(\w+)\s*(?:= .*|[({]?(.*?)[)}]?)$", v).groups("") for v in split(inner)]
            enums.append(p)
        else:
            p.fields = dict(re.search(r"(\w+): (.+)$", v).groups() for v in split(inner) if ": " in v)
            structs.append(p)
    # a function's name may be followed by its type parameters, in which Fn(..) may stand
    for m in re.finditer(r'(extern "\s*" )?\bfn (\w+)(?:<(?:[^<>(]|->|\([^)]*\)|<[^>]*>)*>)?\(', text):
        p = Place(file, text, m.start(2), m.group(2))
        end = past(text, m.end() - 1)
        p.params = [tuple(v.removeprefix("mut ").split(": ", 1)) for v in split(text[m.end() : end - 1]) if ": " in v]
        head = re.compile(r"\s*(->\s*((?:\[[^\]]*\]|[^{;\[])*?)\s*(?=requires|ensures|[{;]))?").match(text, end)
        p.result, end, p.requires = head.group(2) or "", head.end(), []
        while clause := re.compile(r"\s*(requires|ensures)\b[^{]*").match(text, end):
            end = past(text, clause.end())
            if clause.group(1) == "requires":
                p.requires += split(text[clause.end() + 1 : end - 1], "×")
        # a trait's function may have no body
        p.start = re.compile(r"[^{;]*").match(text, end).end()
        p.body = text[p.start : past(text, p.start)] if text[p.start] == "{" else ""
        p.exported = bool(m.group(1))
        functions.append(p)
plain = {e.name for e in enums if not any(carried for _, carried in e.variants)}
# Zeros, or other figures that nothing reads, in the place of what there is none of.
fillers = (r"(?:Err\(_\)|None) => (?:\[|\w+::(?:default|none)\()|None => \[[^\]]*\b0, 0|unwrap_or\(0\)|unwrap_or_default\(\)"
    r"|return \w+::none\(\)|\[0; \w+\];\s*(?:if let|match)|::default\(\); MOST|\} else \{\s*Err\(Refusal::\w+\)\s*\}\s*\}\)")
zeros = r"\b[A-Z]\w+ \{\s*(?:\w+: (?:0|Date \{[^}]*\}|Verdict::Kept),?\s*){2,}"

def value_or_refusal(enum):
    """Some variant carries an error; or just one carries something, which is more than a kind, and the others say that it is missing."""
    carried = [c for _, c in enum.variants if c]
    return bool(ERRORS & set(carried)) or (len(carried) == 1 < len(enum.variants) and carried[0] not in plain)

def found(pattern):
    return [f.line(f.start + m.start()) for f in functions for m in re.finditer(pattern, f.body, re.S)]
def having(pattern, which=lambda f: True):
    return [f for f in functions if which(f) and re.search(pattern, f.body, re.S)]
named_codes = [f for f in having(r"\bmatch\b|_number\(|refusal_number|\{\s*\w+ as \w+\s*\}") if f.name.endswith("_number") and f.result in NUMBERS]
written = [f for f in functions if not f.exported and ("written", "&mut u64") in f.params]

def skeleton(f):
    """The body with types, constants and called names replaced, and its own names numbered in their order."""
    names, out = {}, []
    for token in re.findall(r"'?\w+(?:::\w+)*!?|[^\w\s]", f.body):
        constant = re.match(r"\d", token) or token.isupper() and len(token) > 1
        a_type = "::" in token or token[0].isupper() or re.fullmatch(r"[iu](8|16|32|64|size)", token)
        own = re.match(r"['a-z]", token) and token not in KEYWORDS
        out.append("0" if constant else "T" if a_type else names.setdefault(token, f"x{len(names)}") if own else token)
    return re.sub(r"x\d+(?= \()", "T", " ".join(out)).replace(", )", ")")

bodies = {f: skeleton(f) for f in functions}
handing_on = [f for f in functions if re.fullmatch(r"\{ T \((?: x\d+ ,)* x\d+ \) \}", bodies[f]) and "rounding::" not in f.body]
tables = [f for f in functions if re.fullmatch(r"\{ match x0 \{ (?:[T0_|. =]+ > 0 , )+\} \}", bodies[f])]

def twins():
    """Groups of functions with equal bodies, but for those that only hand on, tables of constants, and one sum or call."""
    groups = defaultdict(list)
    for f in functions:
        if f not in handing_on + tables and (len(bodies[f].split()) > 12 or " as " in f.body and len(bodies[f].split()) < 6):
            groups[bodies[f]].append(f)
    return [g for g in groups.values() if len(g) > 1]

def loops(wanted):
    """The loops of a kind: counting by hand, over an index into a list, over another range, and others."""
    def kind(f, m):
        inner, v = f.body[m.end() : past(f.body, m.end() - 1)], m.group(2)
        if v and v != "_" and ".." in re.sub(r"\[[^\]]*\]", "", m.group()):
            return "index" if re.search(rf"\[[^\]]*\b{v}\b", inner) else "range"
        if ".enumerate()" in m.group():
            return "numbered"
        return "by hand" if re.search(r"\b\w+ [+-]= \w+;", inner) and not m.group(1).startswith("for") else "other"
    found = [(f, m) for f in functions for m in re.finditer(r"\b(for (?:(\w+)|\([^)]*\)) in|while|loop)\b[^{;]*\{", f.body)]
    return [f.line(f.start + m.start()) for f, m in found if kind(f, m) == wanted]

def shared(keys):
    """The keys of three functions or more, each with its functions."""
    uses = defaultdict(list)
    for f, key in [(f, key) for f in functions for key in dict.fromkeys(keys(f))]:
        uses[key].append(f)
    return {k: v for k, v in sorted(uses.items(), key=lambda kv: -len(kv[1])) if len(v) >= 3}

def travelling():
    """Pairs and triples of parameters; a pair that always comes within one triple is left out."""
    pairs, triples = (shared(lambda f: list(itertools.combinations(sorted(f.params), n))) for n in (2, 3))
    kept = {p: v for p, v in pairs.items() if not any(set(p) < set(t) and len(v) == len(w) for t, w in triples.items())}
    return {", ".join(f"{n}: {t}" for n, t in k): v for k, v in [*kept.items(), *triples.items()]}

def frames():
    """The matches on a call that three functions or more match on; decode_inquiry goes with decode, accept_split and accept_built with accept."""
    heads = lambda f: [(re.sub("_(inquiry|split|built)$", "", m.group(1)), f.start + m.start()) for m in re.finditer(r"match (?:\w+::)*(\w+)\(", f.body)]
    return [f"{f.line(at)} {h}" for h in shared(lambda f: [h for h, _ in heads(f)]) for f in functions for g, at in heads(f) if g == h]

def switches():
    """Functions that match on a parameter of some kinds and call different functions in its arms."""
    kinds = {e.name for e in enums if not value_or_refusal(e)} - {"Refusal"}
    matched = [(f, m) for f in functions if (m := re.search(r"match \(?((?:\w+\.)*\w+)[^{]*\{", f.body)) and f.name not in RIGHT]
    calls = lambda f: set(re.findall(r"=> (?:\{\s*)?((?:\w+::)*[a-z]\w+)\(", f.body))
    return [f for f, m in matched if type_of(f, m.group(1)) in kinds and len(calls(f)) > 1]

def type_of(f, path):
    """The type of a parameter or of a field in one, without its reference."""
    first, *rest = path.split(".")
    t = dict(f.params).get(first, "").lstrip("&")
    for field in rest:
        t = next((s.fields.get(field, "") for s in structs if s.name == t), "")
    return t

def beside(f):
    numbers = {n for n, t in f.params if t in NUMBERS}
    lists, entries = any(re.match(r"(&(mut )?)?\[", t) for _, t in f.params), {s.name for s in structs if "count" in s.fields} & {t.lstrip("&") for _, t in f.params}
    return lists and numbers & {"count", "at", "i", "from", "room"} or entries and numbers & {"n", "lines", "i"} or {"count", "i"} <= numbers

PARTS = {
    "1a": ("enums of the shape of Option or Result", lambda: [e for e in enums if value_or_refusal(e)]),
    "1b": ("structs with a flag or a number code beside values", lambda: [s for s in structs if s.name not in RIGHT and any(t in ("bool", "Verdict", "io::Result<()>") or n == "number" for n, t in s.fields.items())]),
    "1c": ("functions that answer by a number code", lambda: [f for f in functions if f in named_codes + written]),
    "1d": ("functions with a number or zeros that stand for none", lambda: [f for f in having(rf"\bNONE_YET\b|\bUNFINISHED\b|{zeros}|\b(?:{REFUSED}|NoTerm|NoneYet|Held)(?:\(_\))? => \[?0|\w\.(?!count)\w+ == 0 \{{|\(?\w+ == 0\)? &&? |{fillers}") if f not in named_codes + written]),
    "1e": ("arms that pass a refusal on, where `?` does", lambda: found(rf"::{REFUSED}\((\w+)\) => (?:return )?(?!\w*:*\w*_number)[\w:]+\(\1\)")),
    "2a": ("twin functions", lambda: [f"{f.line(f.at)} ~ {g[0].name}" for g in twins() for f in g]),
    "2b": ("functions that only hand their parameters on", lambda: handing_on),
    "2c": ("structs with the same names of fields", lambda: [s for s in structs if any(s is not t and set(s.fields) == set(t.fields) for t in structs)]),
    "3a": ("loops that count by hand", lambda: loops("by hand")),
    "3b": ("loops over an index", lambda: loops("index")),
    "3c": ("loops over another range, where a chain does", lambda: loops("range")),
    "3e": ("loops over a list with the number of each element", lambda: loops("numbered")),
    "3d": ("bodies that the standard library has", lambda: found(STANDARD)),
    "4a": ("kinds out of numbers", lambda: having(r"\b\d+ => (\w+::)*[A-Z]\w+")),
    "4b": ("numbers out of kinds", lambda: named_codes),
    "4c": ("structs out of words", lambda: [f for f in functions if re.sub(r"Result<(\w+),.*|Option<(\w+)>", r"\1\2", f.result) in {s.name for s in structs} - {"Reply"} and {"bytes", "words", "state"} & set(dict(f.params)) or f.name.startswith("decode")]),
    "4d": ("lists of numbers out of structs", lambda: having(r"\[\s*(?:\w+\.\w+,\s*){3,}")),
    "4e": ("order and packing by hand", lambda: having(r"[*/%] (?:4_096|2_097_152|4_294_967_296)|(\w+)\.(\w+) < (\w+)\.\2\b|\* 6 \+|[/%] (?:tanks|6)\b")),
    "4f": ("printing by hand", lambda: having(r"/= 10\b|\bMARK\b|\b(?:text|decimal|whole|tenths|write|write_all)!?\((?:out|self)", lambda f: f.name != "main")),
    "4g": ("structs of zeros, where Default does", lambda: found(zeros)),
    "5a": ("facts in the requires of three functions or more", lambda: shared(lambda f: [re.sub(r"^\((.*)\)$", r"\1", a) for a in f.requires])),
    "5b": ("pairs and triples of parameters in three functions or more", travelling),
    "6a": ("structs with fields first to fourth, or a count beside their entries", lambda: [s for s in structs if {"fourth", "count"} & set(s.fields)]),
    "6b": ("functions that go through first to fourth one by one", lambda: having(r"\bfourth\b")),
    "6c": ("functions with a list, or entries, and a number beside it", lambda: list(filter(beside, functions))),
    "6d": ("calls with a page and the bytes written beside it", lambda: written),
    "6e": ("computed indices", lambda: found(r"\w\[(?![^\]]*\.\.)[^\]\n;]*(?:[-+*/%]|as usize|_index\()[^\]\n;]*\]|[/%] (?:6|14)\b")),
    "6f": ("functions that pick words by their number", lambda: having(r"(?:\b\w+\[\d+\]|\bword\([^)]*\)).*(?:\b\w+\[\d+\]|\bword\([^)]*\))", lambda f: f.file != "crates/words/src/lib.rt")),
    "7a": ("the same frame around different calls", frames),
    "7b": ("functions with a bool that says what to do", lambda: [f for f in functions if "bool" in dict(f.params).values()]),
    "7c": ("matches on a parameter that choose a call", switches),
}
for part, (title, places) in PARTS.items():
    if part in sys.argv[1:] or part[0] in sys.argv[1:]:
        got = places()
        for place in got:
            if isinstance(got, dict):
                print(f"{len(got[place])} {place}: " + ", ".join(f"{f.file}:{f.name}" for f in got[place]))
            else:
                print(place.line(place.at) if isinstance(place, Place) else place)
        print(f"{part}: {len(got)} {title}\n")
