#!/usr/bin/env python3
"""Spells the definitions and lemmas of this repository in snake case, as the library does: a dash in a name of our own
becomes an underscore, in specs, proofs, clauses and edits. Names that the check makes (of goals and steps) keep theirs,
and so does a name whose new spelling is taken. Run once at the top, after the kit's own script."""
import collections
import glob
import re

STOP = r"\s(){}\[\];,.:«»⌜⌝\"'`"
WORD = f"[^{STOP}]+"
SIGNATURE = re.compile(rf"^\s*((?:abbrev |unfoldable |pub )*)({WORD}(?:[ ]{WORD})*)\s+:\s+(.*)$")
DECLARED = re.compile(rf"^\s*(?:pub )?(?:record|data) ({WORD})")
MADE = re.compile(r"^\w*\b(goal|need|choice)\.")
# those whose plain spelling is a name of src/
OTHERWISE = {
    "awaits-below": "awaits",
    "join-newest": "newest_joined",
    "loops-meet": "loops_meet_lem",
    "makes-the-same": "makes_the_same_lem",
    "reads-back": "reads_back_lem",
    "sort-asked": "asked_sort",
    "spot-at": "spot_at_lem",
}
HEADS = {"c", "w", "l", "goal", "need", "choice", "rules"}


def texts():
    names = []
    for pattern in ("specs/**/*.antt", "proofs/**/*.antt", "src/**/*.rt", "must-fail/*.edit"):
        names += glob.glob("crates/*/" + pattern, recursive=True)
    return {name: open(name, encoding="utf-8").read() for name in sorted(names)}


def own_names(files):
    own, made = set(), set()
    for name, text in files.items():
        if not name.endswith(".antt"):
            for line in re.findall(r"(?m)^ghost use .*$", text):
                own.update(re.findall(rf" as ({WORD})", line))
            continue
        for line in text.split("\n"):
            if line.lstrip().startswith("--"):
                continue
            m = DECLARED.match(line)
            if m:
                own.add(m.group(1))
                continue
            if line.startswith("use "):
                own.update(re.findall(rf" as ({WORD})", line))
            m = SIGNATURE.match(line)
            if m:
                into = made if MADE.match(m.group(3)) else own
                into.update(m.group(2).split())
    return {n for n in own - made if "-" in n and re.match(r"[A-Za-z]", n)}


def chain_head(text, at):
    start = at
    while start > 0 and not re.match(rf"[\s(){{}}\[\];,:«»⌜⌝\"`]", text[start - 1]):
        start -= 1
    return text[start:at].split(".")[0]


def respell(name, text, new, skipped):
    answers = re.search(r"proofs/.*/(Answers|Choices|Invariants|Proof)\.antt$", name)
    out, last = [], 0
    for m in re.finditer(WORD, text):
        word, at = m.group(0), m.start()
        if word not in new:
            continue
        line = text[text.rfind("\n", 0, at) + 1:at]
        if line.count('"') % 2 == 1:
            continue
        if answers and at > 0 and text[at - 1] == "." and chain_head(text, at - 1) in HEADS:
            skipped[name + " " + word] += 1
            continue
        out += [text[last:at], new[word]]
        last = m.end()
    return "".join(out) + text[last:]


def main():
    files = texts()
    used = set()
    for text in files.values():
        used.update(re.findall(WORD, text))
    new = {}
    for name in sorted(own_names(files)):
        to = OTHERWISE.get(name, name.replace("-", "_"))
        if to in used:
            print("kept, since its new spelling is taken:", name)
        else:
            new[name] = to
    skipped = collections.Counter()
    for name, text in files.items():
        changed = respell(name, text, new, skipped)
        if changed != text:
            open(name, "w", encoding="utf-8").write(changed)
    print(len(new), "names respelled; left as names of steps:", dict(skipped))


main()
