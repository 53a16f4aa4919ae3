"""The structs and calls of include/wanlopheng.h, and what is made of them for a target: the C code that stands between the target's own
convention and the module, and the few lines by which the module is called there."""

import re
from dataclasses import dataclass

# What a type of the header is in the module, which was lowered for x86-64: its LLVM type, size and alignment. size_t has 64 bits there, and
# on every target.
SCALARS = {"uint8_t": ("i8", 1), "uint32_t": ("i32", 4), "uint64_t": ("i64", 8), "size_t": ("i64", 8)}


class Unknown(Exception):
    """Something that this file does not know how to carry over."""


@dataclass
class Field:
    kind: str  # a scalar, or 'struct X'
    name: str
    count: int | None  # of an array


@dataclass
class Parameter:
    kind: str  # a scalar, 'struct X', or a pointer: ends with '*'
    name: str


@dataclass
class Call:
    answer: str
    name: str
    parameters: list


class Header:
    def __init__(self, text):
        text = re.sub(r"/\*.*?\*/", " ", text, flags=re.S)
        self.structs = {}
        for name, body in re.findall(r"struct (\w+) \{(.*?)\};", text, re.S):
            fields = [re.fullmatch(r"((?:struct )?\w+) (\w+)(?:\[(\d+)\])?", f.strip()) for f in body.split(";")[:-1]]
            if not all(fields):
                raise Unknown(f"a field of struct {name}")
            self.structs[name] = [Field(f[1], f[2], int(f[3]) if f[3] else None) for f in fields]
        declared = re.findall(r"^((?:struct )?\w+) (wanlopheng_\w+)\(([^)]*)\);", text, re.M)
        self.calls = [Call(answer, name, [self.parameter(p) for p in given.split(",") if p.strip() != "void"]) for answer, name, given in declared]
        if len(self.calls) != len(re.findall(r"\);", text)):
            raise Unknown("a declaration of the header")

    @staticmethod
    def parameter(text):
        match = re.fullmatch(r"(.*?[ *])(\w+)", " ".join(text.split()))
        return Parameter(match[1].strip(), match[2])

    def layout(self, kind):
        """Size and alignment in the module."""
        if kind in SCALARS:
            return SCALARS[kind][1], SCALARS[kind][1]
        if not kind.startswith("struct ") or kind[7:] not in self.structs:
            raise Unknown(f"the type {kind}")
        size, most = 0, 1
        for field in self.structs[kind[7:]]:
            one, align = self.layout(field.kind)
            size = -(-size // align) * align + one * (field.count or 1)
            most = max(most, align)
        return -(-size // most) * most, most

    # The module's side: x86-64's convention, in LLVM's types.

    def answer_type(self, call):
        """What the export answers; None where it writes its answer, of over 16 bytes, through a first parameter, which it answers."""
        if call.answer in SCALARS:
            return SCALARS[call.answer][0]
        size, _ = self.layout(call.answer)
        return "i64" if size == 8 else "{ i64, i64 }" if size == 16 else self.over_16(size)

    @staticmethod
    def over_16(size):
        if size < 16:
            raise Unknown(f"a struct of {size} bytes by value")
        return None

    def parameter_type(self, parameter):
        """The type of a parameter of the export; a struct of over 16 bytes goes by a copy on the stack."""
        if parameter.kind.endswith("*"):
            return "ptr"
        if parameter.kind in SCALARS:
            return SCALARS[parameter.kind][0]
        size, align = self.layout(parameter.kind)
        if size <= 16:
            raise Unknown(f"a parameter of {size} bytes by value")
        return f"ptr byval([{size} x i8]) align {align}"

    def signature(self, call):
        """The export, as the module has to declare it."""
        types = [self.parameter_type(p) for p in call.parameters]
        answer = self.answer_type(call)
        return f"{answer or 'ptr'} @{call.name}({', '.join(types if answer else ['ptr'] + types)})"

    def door(self, call, attributes):
        """The function that is added to the module: it calls the export and writes the answer through its first parameter."""
        types = [self.parameter_type(p) for p in call.parameters]
        given = [f"{t.split(' ')[0]} noundef %a{i}" for i, t in enumerate(types)]
        handed = [f"{t} %a{i}" for i, t in enumerate(types)]
        answer = self.answer_type(call)
        if answer is None:
            body = [f"  call ptr @{call.name}({', '.join(['ptr %answer'] + handed)})"]
        else:
            align = 4 if answer == "i32" else 8
            body = [f"  %r = call {answer} @{call.name}({', '.join(handed)})", f"  store {answer} %r, ptr %answer, align {align}"]
        head = f"define hidden void @{door_name(call)}({', '.join(['ptr noundef %answer'] + given)}) {attributes} {{"
        return "\n".join([head, "start:", *body, "  ret void", "}"])

    # The target's side: C.

    def shim(self, calls):
        """The C code of these calls, by the header, over the doors."""
        parts = ["/* Made from wanlopheng.h by targets/header.py: each call by the target's own convention, over the module's, in which a length or",
                 " * a place has 64 bits, an answer is written through a pointer and a struct is handed over by one. */",
                 '#include "wanlopheng.h"', "", "_Static_assert(_Alignof(uint64_t) == 8, \"as in the module\");", ""]
        used = self.reached([k for c in calls for k in [c.answer] + [p.kind for p in c.parameters] if k.startswith("struct ")])
        handed = self.reached([p.kind for c in calls for p in c.parameters if p.kind.startswith("struct ")])
        answered = self.reached([c.answer for c in calls if c.answer.startswith("struct ")])
        for name in self.structs:
            kind = f"struct {name}"
            if kind in used:
                parts += [self.wide_struct(name)]
            if kind in answered:
                parts += [self.copier(name, "narrow", f"const struct wide_{name} *from", f"struct {name} *to")]
            if kind in handed:
                parts += [self.copier(name, "widen", f"const struct {name} *from", f"struct wide_{name} *to")]
        return "\n".join(parts + [self.c_call(call) for call in calls]) + "\n"

    def reached(self, kinds):
        found, due = set(), list(kinds)
        while due:
            kind = due.pop()
            if kind not in found:
                found.add(kind)
                due += [f.kind for f in self.structs[kind[7:]] if f.kind.startswith("struct ")]
        return found

    def wide_struct(self, name):
        lines = [f"    {wide(f.kind)} {f.name}{f'[{f.count}]' if f.count else ''};" for f in self.structs[name]]
        size = self.layout(f"struct {name}")[0]
        return "\n".join([f"struct wide_{name} {{", *lines, "};", f"_Static_assert(sizeof(struct wide_{name}) == {size}, \"as in the module\");", ""])

    def copier(self, name, verb, source, target):
        lines = []
        for f in self.structs[name]:
            if f.kind.startswith("struct "):
                lines += [f"    {verb}_{f.kind[7:]}(&from->{f.name}, &to->{f.name});"]
            elif f.count:
                lines += [f"    for (size_t i = 0; i < {f.count}; i++) to->{f.name}[i] = from->{f.name}[i];"]
            else:
                cast = "(size_t)" if f.kind == "size_t" and verb == "narrow" else ""
                lines += [f"    to->{f.name} = {cast}from->{f.name};"]
        return "\n".join([f"static void {verb}_{name}({source}, {target}) {{", *lines, "}", ""])

    def c_call(self, call):
        struct = call.answer.startswith("struct ")
        declared, handed, before = [f"{wide(call.answer)} *told"], [], []
        for p in call.parameters:
            if p.kind.startswith("struct "):
                declared += [f"const {wide(p.kind)} *{p.name}"]
                before += [f"    {wide(p.kind)} wide_{p.name};", f"    widen_{p.kind[7:]}(&{p.name}, &wide_{p.name});"]
                handed += [f"&wide_{p.name}"]
            else:
                declared += [f"{wide(p.kind)} {p.name}" if not p.kind.endswith("*") else f"{p.kind}{p.name}"]
                handed += [p.name]
        given = ", ".join(f"{p.kind}{'' if p.kind.endswith('*') else ' '}{p.name}" for p in call.parameters) or "void"
        after = [f"    {call.answer} told;", f"    narrow_{call.answer[7:]}(&wide, &told);", "    return told;"] if struct else ["    return wide;"]
        return "\n".join([f"void {door_name(call)}({', '.join(declared)});", f"{call.answer} {call.name}({given}) {{", *before,
                          f"    {wide(call.answer)} wide;", f"    {door_name(call)}({', '.join(['&wide'] + handed)});", *after, "}", ""])


def door_name(call):
    return call.name.replace("wanlopheng_", "wanlopheng_door_", 1)


def wide(kind):
    return "uint64_t" if kind == "size_t" else kind.replace("struct ", "struct wide_")
