#!/usr/bin/env python3
"""Brings the names that this repository's .antt files declare to snake case, in .antt and .rt files of crates/.

It was run once, right after the kit's port.py, when the repository moved to the kit rattle-kit-13f. Names that Rattle
makes (goals, steps of a proof's context) and names of the library keep their spelling. It stops, and writes nothing,
where two names would fall together or a new name stands for something else already.

usage: python3 tools/respell.py        at the top of the repository
"""

import os
import re
import sys

PART = r"[^\s(){}\[\].,;:«»λ∷]+"
TOKEN = re.compile(PART)
SIGNATURE = re.compile(r"\s*(?:(?:abbrev|unfoldable|pub|data|record) )*(%s)(?: \{[^}]*\}| \([^)]*\))* : " % PART)


# Names that would fall together with another, or with a function of the source in whose clauses they stand.
OWN = {
    "allModerate": "each_moderate",
    "class-cut": "class_cut_lem",
    "classTotal": "class_sum",
    "dealOf": "contract_deal",
    "in-turn": "in_turn_lem",
    "line-at": "line_at_lem",
    "nextState": "state_after",
    "passed-at": "passed_at_lem",
    "row-of": "row_of_lem",
    "row-total": "row_total_lem",
    "shortfallOf": "agent_shortfall",
    "sound-place": "sound_place_lem",
    "soundAlone": "is_sound_alone",
    "weight-at": "weight_at_lem",
}
# Names of other things elsewhere, in files that do not meet these.
APART = {"amount_sold", "by_source", "class_cut", "effective_at", "in_force", "is_idle", "refusal_of", "taken_at"}


def sources():
    for folder, dirs, names in os.walk("crates"):
        dirs[:] = sorted(d for d in dirs if d not in ("out", "must-fail", "data"))
        for name in sorted(names):
            if name.endswith((".antt", ".rt")):
                yield os.path.join(folder, name)


def declared():
    """The names that signatures, fields and constructors of the .antt files declare; answers to goals are not among them."""
    found = set()
    for path in sources():
        if not path.endswith(".antt"):
            continue
        for line in open(path, encoding="utf-8"):
            if line.strip().startswith("--") or line.startswith("use ") or ": goal." in line:
                continue
            m = SIGNATURE.match(line)
            if m:
                found.add(m[1])
    return found


def snake(name):
    if name in OWN:
        return OWN[name]
    name = name.replace("getD", "get_or").replace("-", "_")
    name = re.sub(r"([a-z0-9])([A-Z])", lambda m: m[1] + "_" + m[2].lower(), name)
    return name


def main():
    names = declared()
    turned = {n: snake(n) for n in names if n[0].islower() and snake(n) != n and re.fullmatch(r"[\w'-]+", n)}
    texts = {p: open(p, encoding="utf-8").read() for p in sources()}
    tokens = set()
    for text in texts.values():
        tokens.update(TOKEN.findall(text))
    bad = [f"{n} would be {m}, which stands already" for n, m in sorted(turned.items()) if m in tokens and m not in APART]
    seen = {}
    for n, m in sorted(turned.items()):
        if m in seen:
            bad.append(f"{n} and {seen[m]} would both be {m}")
        seen[m] = n
    if bad:
        print("\n".join(bad))
        return 1

    count = 0
    for path, text in texts.items():
        new = TOKEN.sub(lambda m: turned.get(m[0], m[0]), text)
        if new != text:
            open(path, "w", encoding="utf-8").write(new)
            count += 1
    print(f"{len(turned)} names, {count} files")
    return 0


if __name__ == "__main__":
    sys.exit(main())
