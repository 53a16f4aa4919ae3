"""The proved module for another machine: what has to be so of it, and what is changed in it. Nothing else is.

The module is what the toolchain lowered the proved crates to, for x86-64, as LLVM's text. It carries over since it does not know how large a
pointer is: structs are arrays of bytes with their offsets written out, in which a pointer has a slot of 8 bytes (on a machine of 32 bits half of
it is used), no pointer is made of a number or becomes one, and no constant holds one. Lines of another shape than those below are refused. The
toolchain's own copy of a part (COPIES) may besides see by their addresses whether two parts overlap, and copy as many bytes as it is told."""

import re

from alignment import align
from header import Unknown

LAYOUT = "e-m:e-p270:32:32-p271:32:32-p272:64:64-i64:64-i128:128-f80:128-n8:16:32:64-S128"
TRIPLE = "x86_64-unknown-linux-gnu"
PROBES = ' "probe-stack"="inline-asm" "stack-probe-size"="3072"'
ATTRIBUTES = f'nounwind{PROBES} "target-cpu"="x86-64"'

INT = r"i(?:1|8|16|32|64)"
ONE = rf"(?:{INT}|ptr)"  # what a variable holds
MANY = r"\[\d+ x (?:i8|i16|i32|i64)\]"  # what a local or a constant may be besides: no pointer in it
WORD = r"(?:%[\w.]+|-?\d+|true|false|poison|@[\w.]+)"
NAME = r'@(?!llvm\.)(?:"[^"]+"|[\w.]+)'
HINTS = r"(?: (?:noundef|zeroext|signext|nonnull|returned|immarg))*"
COPY = r"(?: byval\(\[\d+ x i8\]\) align \d+)?"
META = r"(?:, !(?:noundef|range) !\d+)*"
PAIR = rf"\{{ {ONE}, {ONE} \}}"  # what a function answers in two registers
ANSWER = rf"(?:void|{ONE}|{PAIR})"
GIVEN = rf"\((?:{ONE}{HINTS}{COPY}{HINTS} {WORD}(?:, )?)*\)"
TAKEN = rf"\((?:{ONE}{HINTS}{COPY}{HINTS} %\w+(?:, )?)*\)"

SHAPES = [
    r"",
    r"; ModuleID = .*|; Function Attrs: [\w() :,]*",
    r'source_filename = "[^"]*"',
    rf'target datalayout = "{re.escape(LAYOUT)}"',
    rf'target triple = "{TRIPLE}"',
    rf"{NAME} = (?:private|internal)(?: unnamed_addr)? constant {MANY} (?:c\"[^\"]*\"|\[[-\d i,]*\]|zeroinitializer), align \d+",
    rf"define(?: internal)?{HINTS} {ANSWER} {NAME}{TAKEN} #\d+ \{{",
    r"declare void @llvm\.memmove\.p0\.p0\.i64\(ptr writeonly captures\(none\), ptr readonly captures\(none\), i64, i1 immarg\) #\d+",
    r"declare void @llvm\.memset\.p0\.i64\(ptr writeonly captures\(none\), i8, i64, i1 immarg\) #\d+|declare void @llvm\.trap\(\) #\d+",
    r"declare i64 @llvm\.ctlz\.i64\(i64, i1 immarg\) #\d+",
    r"\}",
    r"[\w.]+:(?: +; (?:preds = .*|No predecessors!))?",
    rf"  %\w+ = alloca (?:{ONE}|{MANY}), align \d+",
    rf"  %\w+ = load (?:{ONE}|{PAIR}), ptr {WORD}, align \d+{META}",
    rf"  %\w+ = extractvalue {PAIR} %\w+, [01]",
    rf"  store {ONE} {WORD}, ptr {WORD}, align \d+",
    rf"  %\w+ = getelementptr(?: inbounds)?(?: nuw)? i8, ptr {WORD}, i64 {WORD}",
    rf"  (?:%\w+ = )?call{HINTS} {ANSWER} {NAME}{GIVEN}(?: #\d+)?",
    rf"  call void @llvm\.memmove\.p0\.p0\.i64\(ptr {WORD}, ptr {WORD}, i64 \d+, i1 false\)",  # a length is always written out
    rf"  call void @llvm\.memset\.p0\.i64\(ptr {WORD}, i8 {WORD}, i64 \d+, i1 false\)|  call void @llvm\.trap\(\)",
    rf"  %\w+ = call i64 @llvm\.ctlz\.i64\(i64 {WORD}, i1 false\)",  # of 64 bits on every machine
    rf"  %\w+ = (?:add|sub|mul|shl)(?: nuw)?(?: nsw)? {INT} {WORD}, {WORD}",
    rf"  %\w+ = (?:udiv|urem|lshr|and|or|xor)(?: exact| disjoint)? {INT} {WORD}, {WORD}",
    rf"  %\w+ = icmp \w+ {INT} {WORD}, {WORD}|  %\w+ = icmp eq ptr %\w+, null",
    rf"  %\w+ = (?:zext|trunc)(?: nuw| nneg)* {INT} {WORD} to {INT}",
    rf"  %\w+ = select i1 {WORD}, {ONE} {WORD}, {ONE} {WORD}",
    r"  br label %[\w.]+|  br i1 %\w+, label %[\w.]+, label %[\w.]+",
    rf"  switch {INT} %\w+, label %[\w.]+ \[|    {INT} -?\d+, label %[\w.]+|  \]",
    rf"  ret (?:void|{ONE} {WORD}|{PAIR} %\w+)|  unreachable",
    rf"attributes #\d+ = \{{ (?:(?:inlinehint|alwaysinline|noinline) )?{re.escape(ATTRIBUTES)} \}}",
    r"attributes #\d+ = \{(?: (?:nocallback|nofree|nosync|nounwind|speculatable|willreturn|cold|noreturn|memory\((?:none|(?:argmem|inaccessiblemem): \w+)\)))* \}",
    r'!llvm\.ident = !\{!0\}|!\d+ = !\{[^"{}]*\}|!0 = !\{!"rattle logic=[0-9a-f]+"\}',
]
COPIES = re.compile(r'define internal void @"core::ptr::copy_drop::copy_bits::<i\d+>"\(.*')
ADDRESS = re.compile(rf"  (?P<to>%\w+) = ptrtoaddr ptr (?P<from>{WORD}) to i64")
COPIED = re.compile(rf"  call void @llvm\.memmove\.p0\.p0\.i64\(ptr (?P<to>{WORD}), ptr (?P<from>{WORD}), i64 (?P<length>%\w+), i1 false\)")
STEP = re.compile(rf"  (?P<to>%\w+) = getelementptr(?: inbounds)?(?: nuw)? i8, ptr (?P<from>{WORD}), i64 (?P<step>{WORD})")
REACH = re.compile(rf"  (?:%\w+ = load (?P<kind>{ONE}), ptr |store (?P<stored>{ONE}) {WORD}, ptr )(?P<at>{WORD}),")
PAIRED = re.compile(rf"  (?P<to>%\w+) = load \{{ (?P<first>{ONE}), (?P<second>{ONE}) \}}, ptr (?P<at>{WORD}), align (?P<align>\d+){META}")
SHAPE = re.compile("|".join(f"(?:{shape})" for shape in SHAPES))


def check(text):
    """Refuses a module in which a line is of no known shape."""
    more = ()  # what the function at hand may have besides
    for number, line in enumerate(text.splitlines(), 1):
        if line.startswith("define "):
            more = (ADDRESS, COPIED) if COPIES.fullmatch(line) else ()
        if not SHAPE.fullmatch(line) and not any(shape.fullmatch(line) for shape in more):
            raise Unknown(f"line {number} of the module does not carry over: {line[:200]}")
    for due in (f'target datalayout = "{LAYOUT}"', f'target triple = "{TRIPLE}"'):
        if text.count(due) != 1:
            raise Unknown(f"the module has no {due}")
    known = set(re.findall(rf"^attributes (#\d+) = \{{ .*{re.escape(ATTRIBUTES)} \}}$", text, re.M))
    for number in set(re.findall(r"^define .* (#\d+) \{$", text, re.M)) - known:
        raise Unknown(f"functions with the attributes {number} are not for {ATTRIBUTES}")


def size_of(kind):
    """Bytes of a number or a pointer in the module; its alignment is the same."""
    return 8 if kind == "ptr" else max(1, int(kind[1:]) // 8)


def part(match):
    """The lines that read a pair part by part."""
    first, second = match["first"], match["second"]
    step = -(-size_of(first) // size_of(second)) * size_of(second)
    to, pair, align = match["to"], f"{{ {first}, {second} }}", int(match["align"])
    return [f"  {to}_0 = load {first}, ptr {match['at']}, align {align}",
            f"  {to}_at = getelementptr i8, ptr {match['at']}, i64 {step}",
            f"  {to}_1 = load {second}, ptr {to}_at, align {min(align, step & -step)}",
            f"  {to}_half = insertvalue {pair} poison, {first} {to}_0, 0",
            f"  {to} = insertvalue {pair} {to}_half, {second} {to}_1, 1"]


def parted(text):
    """The module with each pair that is read from memory read part by part, with the offset of the second as x86-64 has it. Where a pointer has four
    bytes, a pair that has one would else be read from other places than it was written to."""
    lines = []
    for line in text.splitlines():
        match = PAIRED.fullmatch(line)
        lines += part(match) if match else [line]
    return "\n".join(lines) + "\n"


def spelled(text, bits):
    """The module with what the toolchain's copy has besides in the words of the other lines: an address is a number of 64 bits, and for a machine of 32 bits
    the length of a copy has as many."""
    lines = []
    for number, line in enumerate(text.splitlines()):
        if match := ADDRESS.fullmatch(line):
            line = f"  {match['to']} = ptrtoint ptr {match['from']} to i64"
        elif bits == 32 and (match := COPIED.fullmatch(line)):
            lines.append(f"  %length{number} = trunc i64 {match['length']} to i32")
            line = f"  call void @llvm.memmove.p0.p0.i32(ptr {match['to']}, ptr {match['from']}, i32 %length{number}, i1 false)"
        lines.append(line)
    return "\n".join(lines) + "\n"


def check_slots(text):
    """Refuses a module in which a function has a place once as a pointer and once as a number: so a pointer could become a number, or a number a
    pointer, without a line that says so."""
    known, pointers, numbers = {}, {}, {}  # a register's base and offset; for each base the offsets, and the offsets with their ends
    for line in text.splitlines():
        if line.startswith("define "):
            known, pointers, numbers = {}, {}, {}
        elif match := STEP.fullmatch(line):
            base, offset = known.get(match["from"], (match["from"], 0))
            step = match["step"]
            known[match["to"]] = (match["to"], 0) if step.startswith("%") else (base, offset + int(step))
        elif match := REACH.match(line):
            base, offset = known.get(match["at"], (match["at"], 0))
            kind = match["kind"] or match["stored"]
            if kind == "ptr":
                pointers.setdefault(base, set()).add(offset)
            else:
                numbers.setdefault(base, set()).add((offset, offset + size_of(kind)))
        elif line == "}":
            for base, offsets in pointers.items():
                mixed = [o for o in offsets if any(start < o + 8 and o < end for start, end in numbers.get(base, ()))]
                if mixed:
                    raise Unknown(f"a pointer at {base} + {mixed[0]} is a number too")


def exports(text):
    """Each export with its types, in the form of Header.signature."""
    found = {}
    for line in text.splitlines():
        match = re.fullmatch(rf"define({HINTS}) (?P<answer>{ANSWER}) @(?P<name>\w+)\((?P<taken>.*)\) #\d+ \{{", line)
        if match:
            taken = re.sub(r" (?:noundef|zeroext|signext|nonnull)\b", "", match["taken"])
            types = re.sub(r" %\w+(?=,|$)", "", taken)
            found[match["name"]] = f"{match['answer']} @{match['name']}({types})"
    return found


def retarget(text, header, layout, triple, probes, bits):
    """The module for a machine whose pointers have so many bits, and the calls that it has. `probes`: its back end knows how to touch each page
    of a large frame in turn."""
    check(text)
    text = spelled(parted(text), bits)
    check_slots(text)
    here = exports(text)
    calls = [call for call in header.calls if call.name in here]
    if len(calls) != len(here):
        raise Unknown(f"the header lacks {sorted(set(here) - {c.name for c in calls})}")
    for call in calls:
        if here[call.name] != header.signature(call):
            raise Unknown(f"the module has {here[call.name]}, the header {header.signature(call)}")
    text = align(text)
    text = text.replace(f'target datalayout = "{LAYOUT}"', f'target datalayout = "{layout}"')
    text = text.replace(f'target triple = "{TRIPLE}"', f'target triple = "{triple}"')
    attributes = f"nounwind{PROBES if probes else ''}"
    text = text.replace(ATTRIBUTES, attributes)
    if bits == 32:  # lengths of copies, which are written out
        text = re.sub(r"(@llvm\.mem(?:move\.p0\.p0|set\.p0)\.)i64(\(.*), i64( \d+)?, i1", r"\1i32\2, i32\3, i1", text)
    for call in calls:
        text = re.sub(rf"^define (?=[^\n]*@{call.name}\()", "define internal ", text, flags=re.M)
    return text + "\n" + "\n\n".join(header.door(call, attributes) for call in calls) + "\n", calls
