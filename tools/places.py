#!/usr/bin/env python3
"""Lists the places in src/ that docs/DESIGN-PASS.md counts, a section for each point. Run at the top of a checkout.

What a text search can't see (types of one shape, buffers with a length, a switch on a step) is listed by eye in that page.
"""
import collections
import glob
import re

FILES = sorted(glob.glob("crates/*/src/**/*.rt", recursive=True))
TEXTS = {f: open(f, encoding="utf-8").read() for f in FILES}


def lines():
    for f in FILES:
        for i, line in enumerate(TEXTS[f].splitlines(), 1):
            if not line.lstrip().startswith(("//", "ghost use", "use ")):
                yield f, i, line.strip()


def matching(pattern):
    return [(f, i, l) for f, i, l in lines() if re.search(pattern, l)]


def functions():
    """Every function: file, line, header up to its body."""
    for f in FILES:
        text = TEXTS[f]
        for m in re.finditer(r"\bfn (\w+)", text):
            end = len(text)
            for stop in re.finditer(r"\n\s*\{\n|\n\s*\{\}\n|;\n|\) *(->[^\n{;]*)?\{\n", text[m.start():]):
                end = m.start() + stop.end()
                break
            yield f, text.count("\n", 0, m.start()) + 1, m.group(1), text[m.start():end]


def index_loops():
    """Loops that count by hand: a range whose variable is an index or is cast, or a loop that steps a counter."""
    found = []
    for f in FILES:
        text = TEXTS[f]
        for m in re.finditer(r"^( *)(for (\w+) in [^\n]*\.\.[^\n]*\{|while [^\n]*\{|loop \{)\n(.*?)^\1\}", text, re.M | re.S):
            name, body = m.group(3), m.group(4)
            counted = name and re.search(rf"\b{name} as \w|\[[^\]]*\b{name}\b[^\]]*\]|\({name}\)\)|, {name}\)", body)
            stepped = re.search(r"^\s*\w+ \+= ", body, re.M)
            if counted or stepped:
                found.append((f, text.count("\n", 0, m.start()) + 1, m.group(2)))
    return found


def parts(fact):
    """The facts that a clause joins by ×."""
    depth, out, last = 0, [], 0
    for i, c in enumerate(fact):
        depth += c in "(["
        depth -= c in ")]"
        if c == "×" and depth == 0:
            out.append(fact[last:i])
            last = i + 1
    out.append(fact[last:])
    out = [p.strip() for p in out]
    if len(out) == 1:
        inner = out[0]
        return parts(inner[1:-1]) if inner.startswith("(") and inner.endswith(")") and "×" in inner else [inner]
    return [q for p in out for q in parts(p)]


def repeated_requires():
    seen = collections.defaultdict(list)
    for f, i, name, header in functions():
        for m in re.finditer(r"requires (?:\w+ )?\{ (.*?) \}\n", header):
            for fact in parts(m.group(1)):
                fact = re.sub(r"^\((.*)\)$", r"\1", fact)
                fact = re.sub(r"\b(self|cursor|head|sheet|block|table|work|outer|inner)\b", "_", fact)
                seen[f.split("/")[1], re.sub(r"\.(old|now)\b", "", fact)].append((f, i, name))
    return [(crate, fact, at) for (crate, fact), at in sorted(seen.items()) if len(at) >= 3]


def travelling():
    """Three or more parameters that stand together in three or more functions of a crate."""
    seen = collections.defaultdict(set)
    for f, i, name, header in functions():
        names = re.findall(r"(?:^|[(,]\s*)(?:mut )?(\w+): ", header.split(" ensures")[0].split(" requires")[0])
        for a in range(len(names) - 2):
            seen[f.split("/")[1], tuple(names[a:a + 3])].add((f, i, name))
    return [(crate, group, sorted(at)) for (crate, group), at in sorted(seen.items()) if len(at) >= 3]


def show(title, found):
    print(f"## {title}: {len(found)}")
    for place in found:
        print("  " + ":".join(str(p) for p in place[:2]) + "  " + " ".join(str(p) for p in place[2:]))


show("1 flags in structs", matching(r"^(pub(\(crate\))? )?\w+: bool,$"))
show("1 numbers for kinds and refusals", matching(r"\bfn (number|byte|kind_of|sort_byte)\b|^(pub )?(number|sort|kind): u8,$"))
show("1 enums (to be read)", matching(r"^(pub(\(crate\))? )?enum \w+"))
show("3 loops that count by hand", index_loops())
show("4 equality by hand", matching(r"\bfn same\w*\b"))
show("4 conversions by hand", matching(r"\bfn (read|byte|kind_of|sort_byte|sort_asked)\(|impl.* From<"))
show("4 printing by hand", matching(r"\bfn (name|\w*refusal|of_\w+|in_words|tell_sort|print_\w+)\b.*(str|rt: &HostRuntime)|const STANDINGS"))
show("5 facts required in three or more contracts", repeated_requires())
show("5 requires that join facts", matching(r"requires .*×"))
show("5 parameters that travel together", travelling())
proofs = glob.glob("crates/*/proofs/**/*.antt", recursive=True)
print(f"## 8 proofs: {len(proofs)} files, {sum(len(open(p, encoding='utf-8').readlines()) for p in proofs)} lines")
