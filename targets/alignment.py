"""How the pointers that the functions of a module are handed are aligned, written where each function is defined.

The module copies every struct that it is handed, and does not say how the copy is aligned: a machine that has to know would copy byte by byte. A
function that is not exported is handed what the calls of the module hand it and nothing else; so the least that they all keep is true of it."""

import re

NAME = r'@(?!llvm\.)(?:"[^"]+"|[\w.]+)'
QUOTED = '@"'  # such a name stands in a definition and in calls and nowhere else: no other line of a known shape can have it (retarget.py)
MOST = 16
DEFINED = re.compile(rf"define(?P<internal> internal)?[^@]* (?P<name>{NAME})\((?P<taken>.*)\) #\d+ \{{")
MADE = re.compile(r"  (%\w+) = alloca .*, align (\d+)")
STEP = re.compile(r"  (%\w+) = getelementptr(?: inbounds)?(?: nuw)? i8, ptr (\S+), i64 (\S+)")
CHOICE = re.compile(r"  (%\w+) = select i1 \S+, ptr (\S+), ptr (\S+)")
CALL = re.compile(rf"  (?:%\w+ = )?call[^@]* ({NAME})\((.*)\)(?: #\d+)?")


def pointers(words):
    """Of parameters or arguments those that are pointers, and None for each other."""
    parts = [part.split() for part in words.split(", ") if part]
    return [part[-1] if part[0] == "ptr" else None for part in parts]


def functions(text):
    """Each function: whether it is internal, its parameters, its lines."""
    found, here = {}, None
    for line in text.splitlines():
        if match := DEFINED.fullmatch(line):
            here = []
            found[match["name"]] = (bool(match["internal"]), pointers(match["taken"]), here)
        elif here is not None:
            here.append(line)
    return found


def handed(taken, least, lines, constants):
    """The calls of a function, each with the alignments of what it hands on. What is read from memory is aligned as 1."""
    known = constants | {name: least[i] for i, name in enumerate(taken) if name}
    for line in lines:
        if match := MADE.fullmatch(line):
            known[match[1]] = int(match[2])
        elif match := STEP.fullmatch(line):
            step = int(match[3]) if match[3].isdecimal() else 1
            known[match[1]] = min(known.get(match[2], 1), step & -step or MOST)
        elif match := CHOICE.fullmatch(line):
            known[match[1]] = min(known.get(match[2], 1), known.get(match[3], 1))
        elif match := CALL.fullmatch(line):
            yield match[1], [known.get(name, 1) if name else MOST for name in pointers(match[2])]


def least_alignments(text):
    """For each function the alignment of each parameter that every call keeps."""
    found = functions(text)
    constants = {m[1]: int(m[2]) for m in re.finditer(rf"^({NAME}) = .*, align (\d+)$", text, re.M)}
    least = {name: [MOST if internal and name.startswith(QUOTED) else 1] * len(taken) for name, (internal, taken, _) in found.items()}
    settled = False
    while not settled:
        settled = True
        for name, (_, taken, lines) in found.items():
            for callee, given in handed(taken, least[name], lines, constants):
                kept = [min(pair) for pair in zip(least[callee], given, strict=True)]
                settled, least[callee] = settled and kept == least[callee], kept
    return least


def align(text):
    """The module with the alignments at the definitions of its internal functions."""
    least = least_alignments(text)

    def written(match):
        parts = match["taken"].split(", ") if match["taken"] else []
        for i, number in enumerate(least[match["name"]]):
            if parts[i].startswith("ptr ") and "byval" not in parts[i] and number > 1:
                parts[i] = re.sub(r" (%\w+)$", rf" align {number} \1", parts[i])
        return match[0].replace(f"({match['taken']})", f"({', '.join(parts)})")

    return re.sub(rf"^{DEFINED.pattern}$", written, text, flags=re.M)
