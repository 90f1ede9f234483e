#!/usr/bin/env python3
"""Writes what definitions by recursion over boxed types are at each variant.

    tools/equations.py SPECS.antt NAME,NAME.. RULESET ROWS CRATE/src/FILE.rt.. > LEMMAS.antt

SPECS.antt has the definitions, `unfoldable`, by clauses; the .rt files declare the enums that they
match on; ROWS is the `use` path of the hidden rows of these enums, as the note of a check prints it
(`Rattle.program.specs.declared.expressions.Expr.TheBlock.{hidden-the_row-Expr-0, ..}`). A
definition into numbers or data gets an equation for each variant, one into `Type 0` the two ways
between the fact and its clause. All are identities. `rt tidy` then drops the `use` lines that
nothing needs. A clause over a list of trees (a row) wants a lemma by hand.
"""
import re
import sys

PLAIN = {"u8": "ℕ", "u32": "ℕ", "u64": "ℕ", "usize": "ℕ", "i64": "ℤ", "i128": "ℤ", "bool": "Bool"}


def antt_type(rust):
    rust = rust.strip()
    inner = re.fullmatch(r"(Boxed|Items|Option)<(.*)>", rust)
    if inner is None:
        return PLAIN.get(rust, rust)
    of = antt_type(inner[2])
    if inner[1] == "Boxed":
        return of
    name = {"Items": "List", "Option": "Option"}[inner[1]]
    return f"{name} {of}" if " " not in of else f"{name} ({of})"


def split(text):
    """The parts of a list between commas outside brackets."""
    parts, depth, start = [], 0, 0
    for i, c in enumerate(text):
        depth += (c in "(<{") - (c in ")>}")
        if c == "," and depth == 0:
            parts.append(text[start:i])
            start = i + 1
    return [p for p in parts + [text[start:]] if p.strip()]


def variants(sources):
    """Each enum's variants, with the types of their fields, and where the enum is declared."""
    found = {}
    for path in sources:
        text = re.sub(r"//.*", "", open(path, encoding="utf-8").read())
        for name, body in re.findall(r"pub enum (\w+) \{(.*?)\n\}", text, re.S):
            for part in split(body):
                variant, fields = re.match(r"\s*(\w+)\s*(.*)", part, re.S).groups()
                fields = fields.strip()[1:-1] if fields.strip() else ""
                types = [antt_type(f.split(":")[-1]) for f in split(fields)]
                found.setdefault(name, ({}, path))[0][variant] = types
    return found


def arguments(text):
    """The patterns of a clause's left side: words, and groups in brackets."""
    out, depth, word = [], 0, ""
    for c in text:
        depth += (c == "(") - (c == ")")
        if c == " " and depth == 0:
            out += [word] if word else []
            word = ""
        else:
            word += c
    return out + ([word] if word else [])


def read(pattern, of, known, fresh):
    """The variant that a pattern is of, and what it binds, by name and type; none for a variable."""
    words = arguments(pattern[1:-1]) if pattern.startswith("(") else [pattern]
    variant = words[0].rstrip("'").split(".")[-1]
    if of not in known or variant not in known[of][0]:
        return None, [(fresh() if pattern == "_" else pattern, of)]
    fields, parts = known[of][0][variant], words[1:]
    if words[0].endswith("'"):
        shapes = len(parts) - len(fields)
        kept = []
        for w in parts:
            if w == "_" and shapes > 0:
                shapes -= 1
            else:
                kept.append(arguments(w[1:-1])[1] if w.startswith("(more_of-") else w)
        parts = kept
    return variant, [(fresh() if w == "_" else w, t) for w, t in zip(parts, fields)]


def spread(reads, params, known, seen, fresh):
    """A clause for each variant that its catch-all stands for."""
    places = {place for place, _ in seen}
    if any(variant for variant, _ in reads) or len(places) != 1:
        yield reads, None
        return
    (i,) = places
    for name, fields in known[params[i]][0].items():
        if (i, name) not in seen:
            now = list(reads)
            now[i] = (name, [(fresh(), t) for t in fields])
            yield now, reads[i][1][0][0]


def term(variant, bound, of):
    text = " ".join([f"in_{of}.{variant}" if variant else ""] + [v for v, _ in bound]).strip()
    return f"({text})" if " " in text else text


def lemmas(name, reads, params, result, right, opens):
    binders = " ".join(f"({v} : {t})" for _, bound in reads for v, t in bound)
    whole = " ".join([name] + [term(v, b, of) for (v, b), of in zip(reads, params)])
    variant = next((v for v, _ in reads if v), "else")
    lemma = f"{name.lower()}_{variant.lower()}"
    arrow = f"{binders} → " if binders else ""
    blanks = " _" * sum(len(bound) for _, bound in reads)
    if result != "Type 0":
        return [lemma], [f"pub {lemma} : {arrow}{whole} ≡ {right}", opens, f"{lemma}{blanks} = refl", ""]
    back = lemma + "_is"
    return [lemma, back], [
        f"pub {lemma} : {arrow}{whole} → {right}", opens, f"{lemma}{blanks} h = h", "",
        f"pub {back} : {arrow}({right}) → {whole}", opens, f"{back}{blanks} h = h", "",
    ]


def imports(path, specs, out, known, sources):
    """The `use` lines of the definitions, the definitions, and the types of what is bound."""
    lines = [l for l in specs.splitlines() if l.startswith("use ")]
    print("\n".join(lines))
    have = set(re.findall(r"[^\s{},]+", " ".join(l[l.find("{"):] for l in lines if "{" in l)))
    crate, module = re.search(r"(\w+)/specs/(\w+)\.antt", path).groups()
    public = re.findall(r"^\s*(?:(?:unfoldable|abbrev) pub|pub record|pub data|pub) (\w+) :", specs, re.M)
    public += re.findall(r"^pub (?:record|data) (\w+) \(", specs, re.M)
    fields = set(re.findall(r"^  pub (\w+) :", specs, re.M)) - set(re.findall(r"^  (\w+) .* = ", specs, re.M))
    print(f"use Rattle.{crate}.specs.{module}.{{{', '.join(n for n in public if n not in fields)}}}")
    words = set(re.findall(r"[\w◌≡]+", " ".join(out)))
    plain = [w for w in ("◌≡◌", "ℕ", "ℤ", "Bool", "List", "Option", "refl") if w not in have and (w in words or w == "◌≡◌")]
    print(f"use Rattle.std.specs.Prelude.{{{', '.join(plain)}}}")
    for source in sources:
        crate, module = re.search(r"(\w+)/src/(\w+)\.rt", source).groups()
        for kind in re.findall(r"pub (?:enum|struct) (\w+)", open(source, encoding="utf-8").read()):
            place = f"Rattle.{crate}.specs.declared.{module}.{kind}"
            if kind in words and kind not in have:
                print(f"use {place}.{{{kind}}}")
            if f"in_{kind}" in words and f"{place}.TheVariants as " not in specs:
                print(f"use {place}.TheVariants as in_{kind}")


def main():
    path, opened, ruleset, rows, *sources = sys.argv[1:]
    opened, known = opened.split(","), variants(sources)
    text = re.sub(r"\n {6,}", " ", open(path, encoding="utf-8").read())
    types, seen, names, out = {}, {}, [], []
    hidden = re.findall(r"hidden-[\w-]+", rows)
    opens = "unfolding " + " ".join(opened + ["hidden"] + hidden)
    for line in text.splitlines():
        signature = re.match(r"\s*(?:unfoldable )?pub (\w+) : (.*)", line)
        if signature:
            types[signature[1]] = signature[2]
        clause = re.match(r"\s*(\w+) (.*?) = (.*)", line)
        if clause is None or clause[1] not in opened:
            continue
        name, left, right = clause.groups()
        *params, result = types[name].split(" → ")
        counter = iter(f"x{i}" for i in range(99))
        fresh = lambda: next(counter)
        reads = [read(p, t, known, fresh) for p, t in zip(arguments(left), params)]
        for one, var in spread(reads, params, known, seen.get(name, set()), fresh):
            whole = next((term(v, b, of) for (v, b), of in zip(one, params) if v), "")
            value = re.sub(rf"\b{var}\b", whole, right) if var else right
            made, lines = lemmas(name, one, params, result, value, opens)
            names += made
            out += lines
        seen.setdefault(name, set()).update((i, v) for i, (v, _) in enumerate(reads) if v)
    for enum, name in re.findall(r"(\w+)\.TheVariants as (\w+)", text):
        out = [line.replace(f"in_{enum}.", f"{name}.") for line in out]
    print(f"-- {', '.join(opened)} at each variant; written by tools/equations.py.")
    imports(path, text, out, known, sources)
    print(f"use denote.Hole.Carrier.{{hidden}}\nuse {rows}")
    print("\n" + "\n".join(out))
    print(f"pub ruleset {ruleset} = ({', '.join(names)})")


main()
