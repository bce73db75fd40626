#!/usr/bin/env python3
"""Brings the names of goals, steps and places in a crate's Proof.antt files to those that today's Rattle makes.

usage: rt check --generated NAMES --old-names   in the crate's folder, then
       python3 tools/rename_goals.py [--flat] CRATE NAMES [FUNCTION..]    once for each file

With --flat each `.before` in front of a step goes, since a step is found from any later place. A goal `tie.Need-X`, a place `tie.After-X` and a step `.x` are looked up under their old names, where `-` and `_` count as one. A lemma
that is named after its goal follows it. What has two new names in one function is left, and printed.
"""

import json
import os
import re
import sys


def norm(name):
    name = name.replace("_", "-")
    return re.sub(r"^(overflow|nonzero|bounds)-", "", name)


NAME = r"[\w'₀-₉+*-]+"


def turn(path, names, label):
    with open(path, encoding="utf-8") as f:
        text = f.read()
    needs = {norm(o): n for o, n in names["needs"]}
    places, fields, clash = {}, {}, set()
    new_places = names["places_by_name"]
    arms, told, callee, steps = {}, {}, {}, {}
    for (old, parent, step, called, *rest), new in zip(names["places"], new_places):
        places[norm(old)] = new
        o, n = step
        steps[old] = step
        if called:
            callee[norm(o)] = names["params"].get(called, [])
        m = re.fullmatch(r"At-(match\w*)-(keys\d+|rest)", old)
        if m:
            arms[(norm(m.group(1)), m.group(2))] = n
        # what an arm's place tells of the value is the arm's own fact now
        if parent in steps and steps[parent][0].startswith("match"):
            told[norm(o)] = steps[parent][1]
        if o:
            if fields.get(norm(o), n) != n:
                clash.add(norm(o))
            fields.setdefault(norm(o), n)

    def need(m):
        new = needs.get(norm(m.group(1)))
        if new is None:
            print(f"{label}: no goal {m.group(1)}")
            return m.group(0)
        return "tie.Need-" + new

    text_local = {}
    for m in re.finditer(r"(?m)^(" + NAME + r") : (?:\([^)]*\) → )?tie\.Need-(" + NAME + ")", text):
        mine, goal = m.group(1), m.group(2)
        new = needs.get(norm(goal))
        if new and norm(mine) == norm(goal) and mine != new:
            text_local[mine] = new
    text = re.sub(r"\btie\.Need-(" + NAME + ")", need, text)

    def place(m):
        new = places.get(norm(m.group(1)))
        if new is None:
            if m.group(1).startswith(("Need-", "spec", "close", "invariant", "decreases", "tie", "measure")):
                return m.group(0)
            print(f"{label}: no place {m.group(1)}")
            return m.group(0)
        return "tie." + new

    text = re.sub(r"\btie\.([A-Z]" + NAME + ")", place, text)
    # simultaneously, since an old name may be another's new one
    if text_local:
        form = re.compile(r"(?<![\w'.-])(" + "|".join(sorted(map(re.escape, text_local), key=len, reverse=True)) + r")(?![\w'-])")
        head, sep, body = text.partition("\n\n")
        text = head + sep + form.sub(lambda m: text_local[m.group(1)], body)

    # steps: after a place, that is `c`, a variable of a place's type, one that is bound to a place, or `.before`
    def piece(decl):
        # a test with `!` says now what is tested; what no arm took is told to the tactics
        decl = re.sub(r"\((\w+(?:\.[\w+-]+)*)\.match\w*\.rest(?:\.\d+)*\)|\b\w+(?:\.[\w+-]+)*\.match\w*\.rest(?:\.\d+)*", "(omega arith)", decl)
        at, called = {"c"} | set(re.findall(r"\((" + NAME + r") : tie\.", decl)), {}
        for m in re.finditer(r"\blet (" + NAME + r")(?: : [^=]*?)? = ([\w.'+-]+) in", decl):
            last = m.group(2).split(".")
            if last[0] in at and set(last[1:]) <= {"before"}:
                at.add(m.group(1))
            elif norm(last[-1]) in callee:
                called[m.group(1)] = callee[norm(last[-1])]

        def path(m):
            parts = m.group(0).split(".")
            out = [parts[0]]
            at_place = parts[0] in at
            params = called.get(parts[0])
            skip = 0
            for i, p in enumerate(parts[1:], 1):
                after = parts[i + 1 : i + 3]
                if skip:
                    skip -= 1
                    continue
                if at_place and p != "before":
                    k = norm(p)
                    params = callee.get(k)
                    if p in ("args", "well-formed"):
                        p = p.replace("-", "_")
                    elif k in told and after == ["given", "1"]:
                        p, skip = told[k] + ".is", 2
                    elif k in told and parts[i + 1 : i + 4] == ["given", "0", "0"]:
                        p, skip = told[k] + "." + re.sub(r"\d+$", "", p).replace("-", "_"), 3
                    elif after and (k, after[0]) in arms and after[0] != "rest":
                        p, skip = arms[(k, after[0])] + ".is", 1
                    elif k in clash:
                        print(f"{label}: {p} has two names, in {m.group(0)}: {[n for (_, _, s, *r) in names['places'] for o, n in [s] if norm(o) == k]}")
                    elif k in fields:
                        p = fields[k]
                    at_place = False
                elif params and p.isdigit() and parts[i - 1] in ("new", "auto") and int(p) < len(params):
                    p = params[int(p)]
                elif parts[i - 1] == "args":
                    p = p.replace("-", "_")
                out.append(p)
            whole = ".".join(out)
            # a step or an argument is found from any later place
            return re.sub(r"(?:\.before)+\.(?=\w)", ".", whole) if FLAT else whole

        decl = re.sub(r"(?<![\w.'-])[a-z]\w*(?:\.[\w'+-]+)+", path, decl)
        def plain(m):
            tested = m.group(2).split("if-not-")[1].split(".")[0]
            return m.group(1) + m.group(2) if any(norm(tested).startswith(k) for k in callee) else m.group(0)

        return re.sub(r"not-(?:true|false) (?:_|[\w.+-]+) (\(?)(\w+(?:\.[\w+-]+)*\.if-not-[\w.+-]+)", plain, decl)

    blocks = re.split(r"(?m)(?=^\S)", text)
    text = "".join(b if b.startswith(("use ", "--")) else piece(b) for b in blocks)
    if "omega arith" in text and not re.search(r"(?m)^use .*\barith\b", text):
        text = re.sub(r"(?m)^use ", "use native.Mathlib.Omega.{arith}\nuse ", text, count=1)
    with open(path, "w", encoding="utf-8") as f:
        f.write(text)


def main():
    global FLAT
    FLAT = "--flat" in sys.argv
    sys.argv = [a for a in sys.argv if a != "--flat"]
    crate, at, only = sys.argv[1], sys.argv[2], sys.argv[3:]
    names = json.load(open(at if at.endswith(".json") else os.path.join(at, "names.json")))
    for folder, dirs, files in os.walk(f"crates/{crate}/proofs"):
        if "Proof.antt" not in files:
            continue
        label = os.path.relpath(folder, f"crates/{crate}/proofs").replace("/", ".")
        if only and label not in only:
            continue
        key = f"Rattle-{crate}-proofs.{label}.Lts"
        if key not in names:
            print(f"{label}: no names for {key}")
            continue
        turn(os.path.join(folder, "Proof.antt"), names[key], label)


if __name__ == "__main__":
    sys.exit(main())
