#!/usr/bin/env python3
"""Tests of tools/landing, tools/edit-fit, tools/pointers, of what tools/targets does to a module and of how the page is made. Last line: 'N passed, M failed'."""

import contextlib
import importlib.machinery
import importlib.util
import io
import os
import re
import subprocess
import sys
import tempfile
import unittest
from pathlib import Path

HERE = Path(__file__).resolve().parent


def tool(name):
    loader = importlib.machinery.SourceFileLoader(name, str(HERE / name))
    module = importlib.util.module_from_spec(importlib.util.spec_from_loader(name, loader))
    loader.exec_module(module)
    return module


sys.dont_write_bytecode = True
landing = tool("landing")
edit_fit = tool("edit-fit")
pointers = tool("pointers")
sys.path[:0] = [str(HERE.parent / "targets"), str(HERE.parent / "web/desk")]
import build  # noqa: E402
import header  # noqa: E402
import make  # noqa: E402
import retarget  # noqa: E402
import run  # noqa: E402

SPEC = """-- What it defines.
use Prim.Native.Nat.{ℕ, _≤_}

-- the limit
unfoldable pub limit : ℕ
limit = 8

module _ {A : Type 0} where

  -- twice
  pub double : ℕ → ℕ
  double n = n + n

pub record Held (n : ℕ) : Type 0 where
  pub within : n ≤ limit

module _ (n : ℕ) (h : n ≤ limit) where

  pub held : Held n
  held = record { within = h }

pub in-limit : (n : ℕ) → Held n → n ≤ limit
in-limit n h = h .within
"""

NESTED = """module _ (t : Table) where
  module _ (n : ℕ) where

    -- how many
    size : List ℕ → ℕ
    size s =
        length s

-- a comment at the margin ends no module
    pub ordered : Ordered t n
    ordered = record { all = refl }

  pub outer : Outer t
  outer = ordered 0

pub last : Last
last = refl
"""

SOURCE = """// The code.
const LIMIT: usize = 8;

pub struct Pair {
    pub first: u32,
}

// Whether it is in the limit.
pub fn fits(n: usize) -> bool
    ensures { λ r. ⌜ r ≡ leb n limit ⌝ }
{
    n <= LIMIT
}

fn half(n: usize) -> usize {
    n / 2
}
"""

PROOF = """-- `fits` meets its contract.
returns : tie.Need-returns
returns c = refl
"""

LAWS = """pub below : (n : ℕ) → n ≤ n
below n = refl

pub above : (n : ℕ) → n ≤ suc n
above n = step
"""

FILES = {
    "crates/low/specs/Low.antt": SPEC,
    "crates/low/src/lib.rt": SOURCE,
    "crates/low/proofs/fits/Proof.antt": PROOF,
    "crates/low/proofs/Laws.antt": LAWS,
    "crates/low/specs/Lib.antt": "module Lib\n",
}


def moves(changes):
    """The counts of moved, new, gone, elsewhere and stayed items by kind after these changes of files."""
    head = {path: text for path, text in {**FILES, **changes}.items() if text is not None}
    found = landing.compared(landing.items_of(FILES), landing.items_of(head))
    kinds = [[(p[1] if isinstance(p[0], tuple) else p).kind for p in group] for group in found]
    return {kind: tuple(group.count(kind) for group in kinds) for kind in landing.KINDS}


STAYED = {"definitions": (0, 0, 0, 0, 3), "promises": (0, 0, 0, 0, 4), "proofs": (0, 0, 0, 0, 5), "code": (0, 0, 0, 0, 4)}


class Landing(unittest.TestCase):
    def test_items(self):
        items = landing.items_of(FILES)
        names = {kind: sorted(i.name for i in items if i.kind == kind) for kind in landing.KINDS}
        self.assertEqual(names["definitions"], ["Held", "double", "limit"])
        self.assertEqual(names["promises"], ["fits", "half", "held", "in-limit"])
        self.assertEqual(names["proofs"], ["above", "below", "fits", "held", "in-limit"])
        self.assertEqual(names["code"], ["LIMIT", "Pair", "fits", "half"])

    def test_contract_and_body_are_parted(self):
        items = landing.items_of(FILES)
        text = {(i.kind, i.name): t for i, t in items.items()}
        self.assertEqual(text["promises", "fits"], "pub fn fits(n: usize) -> bool ensures { λ r. ⌜ r ≡ leb n limit ⌝ }")
        self.assertEqual(text["code", "fits"], "n <= LIMIT }")
        self.assertEqual(text["promises", "half"], "fn half(n: usize) -> usize")

    def test_modules_inside_modules(self):
        found = {name: (kind, text) for kind, name, text in landing.spec_items(NESTED) if kind != "proofs"}
        self.assertEqual({name: kind for name, (kind, _) in found.items()}, {"size": "definitions", "ordered": "promises", "outer": "promises", "last": "promises"})
        self.assertEqual(found["ordered"][1], "module _ (t : Table) where module _ (n : ℕ) where pub ordered : Ordered t n")
        self.assertEqual(found["outer"][1], "module _ (t : Table) where pub outer : Outer t")
        self.assertEqual(found["last"][1], "pub last : Last")

    def test_nothing_moved(self):
        self.assertEqual(moves({}), STAYED)

    def test_comments_and_layout_do_not_count(self):
        changes = {
            "crates/low/specs/Low.antt": SPEC.replace("-- the limit", "-- the greatest").replace("limit = 8", "limit =\n    8"),
            "crates/low/src/lib.rt": SOURCE.replace("// Whether", "// Says whether").replace("    n <= LIMIT", "    // at most\n    n <= LIMIT"),
        }
        self.assertEqual(moves(changes), STAYED)

    def test_a_definition_moves(self):
        found = moves({"crates/low/specs/Low.antt": SPEC.replace("limit = 8", "limit = 9")})
        self.assertEqual(found, {**STAYED, "definitions": (1, 0, 0, 0, 2)})

    def test_a_contract_moves_and_its_body_stays(self):
        found = moves({"crates/low/src/lib.rt": SOURCE.replace("leb n limit", "ltb n limit")})
        self.assertEqual(found, {**STAYED, "promises": (1, 0, 0, 0, 3)})

    def test_a_statement_moves_and_its_proof_stays(self):
        found = moves({"crates/low/specs/Low.antt": SPEC.replace("Held n → n ≤ limit", "Held n → n ≤ suc limit")})
        self.assertEqual(found, {**STAYED, "promises": (1, 0, 0, 0, 3)})

    def test_a_premise_of_a_module_moves(self):
        found = moves({"crates/low/specs/Low.antt": SPEC.replace("(h : n ≤ limit)", "(h : n ≤ 7)")})
        self.assertEqual(found, {**STAYED, "promises": (1, 0, 0, 0, 3)})

    def test_a_file_that_goes_elsewhere(self):
        found = moves({"crates/low/proofs/Laws.antt": None, "crates/lower/proofs/Laws.antt": LAWS.replace("= step", "= more")})
        self.assertEqual(found, {**STAYED, "proofs": (1, 0, 0, 1, 3)})

    def test_new_and_gone(self):
        found = moves({"crates/low/src/lib.rt": SOURCE.replace("fn half", "fn third")})
        self.assertEqual(found, {**STAYED, "promises": (0, 1, 1, 0, 3), "code": (0, 1, 1, 0, 3)})

    def test_times(self):
        log = "1:02, 1 of 2 crates  rt: low proved\n1:03, 2 of 2 crates  rt: high is kept: an earlier run\n1:04  rt: must-fail low/a.edit: refused, as it must be\n"
        self.assertEqual(landing.times_of(log), (["low"], 1, None))
        self.assertEqual(landing.times_of(log + "test: 20:05 in all\n")[2], 1205)

    def test_two_commits_and_two_logs(self):
        with tempfile.TemporaryDirectory() as room:
            git = lambda *words: subprocess.run(["git", "-C", room, "-c", "user.name=t", "-c", "user.email=t@t", *words], check=True, capture_output=True)
            git("init", "-q")
            for text in ("limit = 8", "limit = 9"):
                for path, content in FILES.items():
                    file = Path(room, path)
                    file.parent.mkdir(parents=True, exist_ok=True)
                    file.write_text(content.replace("limit = 8", text), encoding="utf-8")
                git("add", ".")
                git("commit", "-q", "-m", text)
            before, after = Path(room, "before"), Path(room, "after")
            before.write_text("rt: low proved\n")
            after.write_text("rt: low proved\nrt: new proved\ntest: 1:10 in all\n")
            out, here = io.StringIO(), os.getcwd()
            os.chdir(room)
            try:
                self.assertEqual(landing.main(["HEAD~1", "HEAD", str(before), str(after)], out), 0)
            finally:
                os.chdir(here)
        lines = out.getvalue().splitlines()
        self.assertIn("| definitions | 1 | 0 | 0 | 0 | 2 |", lines)
        self.assertIn("- moved: `low`: `limit`", lines)
        self.assertIn("- stayed: `low`: `Held`, `double`", lines)
        self.assertIn("| the whole gate | – | 70 s |", lines)
        self.assertIn("| crates proved in that run | 1 | 2 |", lines)

    def test_bad_usage(self):
        with contextlib.redirect_stderr(io.StringIO()):
            self.assertEqual(landing.main([]), 2)


class Edits(unittest.TestCase):
    def setUp(self):
        room = tempfile.TemporaryDirectory()
        self.addCleanup(room.cleanup)
        self.root = Path(room.name)
        for path, text in FILES.items():
            file = self.root / path
            file.parent.mkdir(parents=True, exist_ok=True)
            file.write_text(text, encoding="utf-8")

    def faults(self, *lines):
        return list(edit_fit.faults("\n".join(lines) + "\n", self.root / "crates/low"))

    def test_what_fits(self):
        first = ("# Half is a third.", "file: src/lib.rt", "old: n / 2", "new: n / 3")
        self.assertEqual(self.faults(*first), [])
        self.assertEqual(self.faults(*first, "old: n / 3", "new: n / 4"), [], "where the first pair was applied")
        self.assertEqual(self.faults(*first, "file: specs/Low.antt", "old: limit = 8", "new: limit = 9"), [])

    def test_what_does_not(self):
        for lines, why in (
            (("file: src/lib.rt", "old: n * 2", "new: n"), "0 times in src/lib.rt: n * 2; most like it is line 16:     n / 2"),
            (("file: src/lib.rt", "old: usize", "new: u32"), "4 times in src/lib.rt: usize"),
            (("file: src/lib.rt", "old: n / 2", "new: n / 3", "old: n / 2", "new: n"), "0 times in src/lib.rt: n / 2; most like it is line 16:     n / 3"),
            (("file: src/lib.rt", "old: n / 2", "new: n / 2"), "it changes nothing"),
            (("file: src/other.rt", "old: n", "new: m"), "there is no src/other.rt"),
            (("file: must-fail/x", "old: n", "new: m"), "must-fail/x is not below src/, specs/ or proofs/"),
            (("file: src/lib.rt", "old: n / 2"), "it has no 'old:' and 'new:' pair"),
            (("file: src/lib.rt", "new: n"), "a 'new:' line stands before any 'file:' or 'old:' line"),
        ):
            self.assertIn(why, self.faults(*lines))

    def test_a_repository(self):
        for name, new in (("good", "n <= LIMIT + 1"), ("strange", "within(n)")):
            edit = self.root / f"crates/low/must-fail/{name}.edit"
            edit.parent.mkdir(exist_ok=True)
            edit.write_text(f"file: src/lib.rt\nold: n <= LIMIT\nnew: {new}\n", encoding="utf-8")
        (self.root / "crates/low/must-fail/bad.edit").write_text("file: src/lib.rt\nold: n < LIMIT\nnew: n\n", encoding="utf-8")
        out = io.StringIO()
        with contextlib.redirect_stdout(out):
            self.assertEqual(edit_fit.main(["--all"], self.root), 1)
        self.assertEqual([line.partition("; ")[0] for line in out.getvalue().splitlines()], [
            "crates/low/must-fail/bad.edit: 0 times in src/lib.rt: n < LIMIT",
            "crates/low/must-fail/good.edit: fits",
            "crates/low/must-fail/strange.edit: fits",
            "3 edits, 1 do not fit",
        ])
        (self.root / "crates/low/must-fail/strange.edit").write_text("file: src/lib.rt\nold: n <= LIMIT\nnew: holdsAll(n)\n", encoding="utf-8")
        out = io.StringIO()
        with contextlib.redirect_stdout(out), contextlib.redirect_stderr(io.StringIO()):
            self.assertEqual(edit_fit.main(["low"], self.root), 1)
            self.assertEqual(edit_fit.main(["lower"], self.root), 2)
        self.assertIn("crates/low/must-fail/strange.edit: note: its new text has words that no crate has: holdsAll", out.getvalue())


class Pointers(unittest.TestCase):
    def setUp(self):
        self.room = tempfile.TemporaryDirectory()
        self.before, pointers.ROOT = pointers.ROOT, Path(self.room.name)
        for path, text in {**FILES, "docs/READING.md": ""}.items():
            file = Path(self.room.name, path)
            file.parent.mkdir(parents=True, exist_ok=True)
            file.write_text(text, encoding="utf-8")

    def tearDown(self):
        pointers.ROOT = self.before
        self.room.cleanup()

    def test_files_and_links(self):
        here = pointers.ROOT / "docs/READING.md"
        dead = lambda line: list(pointers.dead_on(line, here))
        self.assertEqual(dead("`low/src/lib.rt`, `crates/low/specs/Low.antt`, `low/Low`, [01](READING.md), `crates/X/specs/Y.antt`"), [])
        self.assertEqual(len(dead("`low/src/other.rt` and `low/Other` and [01](01.md)")), 3)

    def test_names_in_a_cell(self):
        dead = lambda cell: list(pointers.dead_in_cell(cell))
        self.assertEqual(dead("`low` `limit`, `in-limit`; `low/src/lib.rt` `fits`"), [])
        self.assertEqual(len(dead("`low` `limits`, `in-lim`; `low/src/lib.rt` `limit-of`")), 3)


HEADER = """/* Two calls. */
struct wanlopheng_part { size_t start; size_t length; };
struct wanlopheng_big { uint32_t number; struct wanlopheng_part part; uint8_t bytes[3]; };
struct wanlopheng_part wanlopheng_trim(const uint32_t *input,
                                       size_t input_length);
struct wanlopheng_big wanlopheng_fill(struct wanlopheng_big big, uint32_t setting);
"""

MODULE = f"""source_filename = "rattle"
target datalayout = "{retarget.LAYOUT}"
target triple = "{retarget.TRIPLE}"

; Function Attrs: nounwind
define internal void @"low::copy"(ptr noundef %a0, ptr noundef %a1) #0 {{
start:
  %r0 = alloca [16 x i8], align 8
  call void @llvm.memmove.p0.p0.i64(ptr %r0, ptr %a0, i64 16, i1 false)
  %r1 = getelementptr i8, ptr %r0, i64 8
  %r2 = load i64, ptr %r1, align 8, !noundef !1
  store i64 %r2, ptr %a1, align 8
  ret void
}}

define {{ i64, i64 }} @wanlopheng_trim(ptr noundef %a0, i64 noundef %a1) #0 {{
start:
  %r0 = alloca [16 x i8], align 8
  call void @"low::copy"(ptr %a0, ptr %r0)
  %r3 = icmp eq ptr %a0, null
  %r9 = load {{ i64, i64 }}, ptr %r0, align 8
  ret {{ i64, i64 }} %r9
}}

define noundef ptr @wanlopheng_fill(ptr noundef %a0, ptr noundef byval([32 x i8]) align 8 %a1, i32 noundef %a2) #0 {{
start:
  ret ptr %a0
}}

declare void @llvm.memmove.p0.p0.i64(ptr writeonly captures(none), ptr readonly captures(none), i64, i1 immarg) #1

attributes #0 = {{ {retarget.ATTRIBUTES} }}
attributes #1 = {{ nocallback nofree nounwind willreturn memory(argmem: readwrite) }}

!llvm.ident = !{{!0}}

!0 = !{{!"rattle logic=00"}}
!1 = !{{}}
"""


class Targets(unittest.TestCase):
    def setUp(self):
        self.header = header.Header(HEADER)

    def changed(self, module=MODULE, probes=False, bits=32):
        return retarget.retarget(module, self.header, "e-p:32:32", "thumbv7em-none-eabi", probes, bits)

    def test_only_these_lines_are_changed(self):
        text, calls = self.changed()
        self.assertEqual([c.name for c in calls], ["wanlopheng_trim", "wanlopheng_fill"])
        before, after = retarget.parted(MODULE).splitlines(), text.splitlines()
        moved = [(a, b) for a, b in zip(before, after) if a != b]
        self.assertEqual([b for _, b in moved], [
            'target datalayout = "e-p:32:32"',
            'target triple = "thumbv7em-none-eabi"',
            'define internal void @"low::copy"(ptr noundef %a0, ptr noundef align 8 %a1) #0 {',
            "  call void @llvm.memmove.p0.p0.i32(ptr %r0, ptr %a0, i32 16, i1 false)",
            "define internal { i64, i64 } @wanlopheng_trim(ptr noundef %a0, i64 noundef %a1) #0 {",
            "define internal noundef ptr @wanlopheng_fill(ptr noundef %a0, ptr noundef byval([32 x i8]) align 8 %a1, i32 noundef %a2) #0 {",
            "declare void @llvm.memmove.p0.p0.i32(ptr writeonly captures(none), ptr readonly captures(none), i32, i1 immarg) #1",
            "attributes #0 = { nounwind }",
        ])
        added = "\n".join(after[len(before):])
        self.assertEqual(re.findall(r"^  (.*)", added, re.M), [
            "%r = call { i64, i64 } @wanlopheng_trim(ptr %a0, i64 %a1)",
            "store { i64, i64 } %r, ptr %answer, align 8",
            "ret void",
            "call ptr @wanlopheng_fill(ptr %answer, ptr byval([32 x i8]) align 8 %a0, i32 %a1)",
            "ret void",
        ])
        self.assertIn('attributes #0 = { nounwind "probe-stack"="inline-asm" "stack-probe-size"="3072" }\n', self.changed(probes=True)[0])
        inlined = MODULE.replace("ptr noundef %a1) #0 {", "ptr noundef %a1) #2 {") + f"attributes #2 = {{ inlinehint {retarget.ATTRIBUTES} }}\n"
        self.assertIn("attributes #2 = { inlinehint nounwind }\n", self.changed(inlined)[0])
        self.assertIn("i64 16, i1 false", self.changed(bits=64)[0])

    def test_the_copy_of_the_library(self):
        """An address and a length that is not written out are taken in that function alone, and there in other words."""
        body = """start:
  %r8 = ptrtoaddr ptr %a1 to i64
  call void @llvm.memmove.p0.p0.i64(ptr %a1, ptr %a0, i64 %r8, i1 false)
  ret void
}
"""
        head = 'define internal void @"{}"(ptr noundef %a0, ptr noundef %a1) #0 {{\n'
        copy = MODULE.replace("define {", head.format("core::ptr::copy_drop::copy_bits::<i32>") + body + "\ndefine {", 1)
        lines = self.changed(copy)[0].splitlines()
        self.assertIn("  %r8 = ptrtoint ptr %a1 to i64", lines)
        at = next(n for n, line in enumerate(lines) if line.startswith("  %length"))
        self.assertRegex(lines[at], r"^  %length\d+ = trunc i64 %r8 to i32$")
        self.assertRegex(lines[at + 1], r"^  call void @llvm\.memmove\.p0\.p0\.i32\(ptr %a1, ptr %a0, i32 %length\d+, i1 false\)$")
        self.assertIn("  call void @llvm.memmove.p0.p0.i64(ptr %a1, ptr %a0, i64 %r8, i1 false)", self.changed(copy, bits=64)[0].splitlines())
        other = MODULE.replace("define {", head.format("low::other") + body + "\ndefine {", 1)
        self.assertRaises(header.Unknown, self.changed, other)

    def test_a_pair_is_read_part_by_part(self):
        """Each where the module for x86-64 has it, whatever a pointer's size on the machine; and no other line is another."""
        def read(first, second, align=8):
            line = f"  %r9 = load {{ {first}, {second} }}, ptr %r0, align {align}, !noundef !1"
            return retarget.parted(f"a\n{line}\nb\n").splitlines()

        self.assertEqual(read("i8", "ptr"), [
            "a",
            "  %r9_0 = load i8, ptr %r0, align 8",
            "  %r9_at = getelementptr i8, ptr %r0, i64 8",
            "  %r9_1 = load ptr, ptr %r9_at, align 8",
            "  %r9_half = insertvalue { i8, ptr } poison, i8 %r9_0, 0",
            "  %r9 = insertvalue { i8, ptr } %r9_half, ptr %r9_1, 1",
            "b",
        ])
        for first, second, step in (("ptr", "ptr", 8), ("ptr", "i8", 8), ("i8", "i8", 1), ("i1", "i16", 2), ("i32", "i8", 4), ("i16", "i32", 4), ("i64", "i64", 8)):
            self.assertIn(f"  %r9_at = getelementptr i8, ptr %r0, i64 {step}", read(first, second))
        self.assertIn("  %r9_1 = load i8, ptr %r9_at, align 1", read("i8", "i8", 4))
        self.assertIn("  %r9_1 = load i64, ptr %r9_at, align 4", read("i64", "i64", 4))
        # so a place that has a pointer and a number is found, also where a pair has it
        line = "  %r9 = load { i64, i64 }, ptr %r0, align 8\n"
        for pair in ("{ i64, ptr }", "{ ptr, i64 }"):
            other = line.replace("{ i64, i64 }", pair).replace("%r9", "%r8")
            with self.assertRaises(header.Unknown, msg=pair):
                self.changed(MODULE.replace(line, line + other))

    def test_alignments_are_what_every_call_keeps(self):
        def taken(*calls):
            lines = "".join(f"  {line}\n" for line in calls)
            module = MODULE.replace("  %r9 = load", lines + "  %r9 = load")
            return re.search(r'@"low::copy"\((.*)\) #0', self.changed(module)[0])[1]

        once = '  call void @"low::copy"(ptr %a0, ptr %r0)\n'
        self.assertIn(once, MODULE)
        self.assertEqual(taken(), "ptr noundef %a0, ptr noundef align 8 %a1")  # the first comes from outside
        inside = '%r1 = getelementptr i8, ptr %r0, i64 {}', 'call void @"low::copy"(ptr %a0, ptr %r1)'
        for step, left in ((0, " align 8"), (8, " align 8"), (16, " align 8"), (12, " align 4"), (3, ""), ("%a1", ""), (-8, "")):
            self.assertEqual(taken(inside[0].format(step), inside[1]), f"ptr noundef %a0, ptr noundef{left} %a1", msg=step)
        chosen = "%r1 = getelementptr i8, ptr %r0, i64 4", "%r2 = select i1 true, ptr %r0, ptr %r1", 'call void @"low::copy"(ptr %a0, ptr %r2)'
        self.assertEqual(taken(*chosen), "ptr noundef %a0, ptr noundef align 4 %a1")
        loaded = "%r1 = load ptr, ptr %a0, align 8", 'call void @"low::copy"(ptr %a0, ptr %r1)'
        self.assertEqual(taken(*loaded), "ptr noundef %a0, ptr noundef %a1")

    def test_what_does_not_carry_over_is_refused(self):
        line = "  store i64 %r2, ptr %a1, align 8\n"
        for other in (
            "  %r3 = ptrtoint ptr %a0 to i64\n",
            "  %r3 = inttoptr i64 %r2 to ptr\n",
            '  call void asm sideeffect "nop", ""()\n',
            "  %r3 = load i128, ptr %a0, align 16\n",
            "  %r3 = load double, ptr %a0, align 8\n",
            "  %r3 = alloca { ptr, i64 }, align 8\n",
            "  %r3 = load { i64, i128 }, ptr %a0, align 16\n",
            "  %r3 = icmp ult ptr %a0, %a1\n",
            "  %r3 = getelementptr { ptr, i64 }, ptr %a0, i64 1\n",
            "  call void @llvm.memmove.p0.p0.i64(ptr %r0, ptr %a0, i64 %r2, i1 false)\n",
            "  %r3 = call i64 @llvm.ctpop.i64(i64 %r2)\n",
            "  store <4 x i32> zeroinitializer, ptr %a0, align 16\n",
            "  store ptr %a0, ptr %r1, align 8\n",  # %r2 was loaded from there: a pointer that becomes a number
            "  %r3 = load ptr, ptr %r1, align 8\n",
            "  %r3 = getelementptr i8, ptr %r0, i64 4\n  store ptr %a0, ptr %r3, align 4\n",
        ):
            with self.assertRaises(header.Unknown, msg=other):
                self.changed(MODULE.replace(line, line + other))
        self.changed(MODULE.replace(line, line + "  store ptr %a0, ptr %r0, align 8\n"))
        for old, new in (
            (retarget.LAYOUT, retarget.LAYOUT.replace("i64:64", "i64:32")),
            (retarget.TRIPLE, "x86_64-pc-windows-msvc"),
            ('"target-cpu"="x86-64"', '"target-cpu"="x86-64-v3"'),
            ("ptr noundef %a1) #0 {", "ptr noundef %a1) #1 {"),
            ('source_filename = "rattle"', '@table = internal constant [1 x ptr] [ptr @wanlopheng_trim], align 8'),
            ("@wanlopheng_trim(ptr noundef %a0, i64 noundef %a1)", "@wanlopheng_trim(ptr noundef %a0, i32 noundef %a1)"),
            ("define noundef ptr @wanlopheng_fill", "define noundef ptr @wanlopheng_more"),
        ):
            self.assertIn(old, MODULE)
            with self.assertRaises(header.Unknown, msg=new):
                self.changed(MODULE.replace(old, new))

    def test_the_header(self):
        self.assertEqual(self.header.layout("struct wanlopheng_big"), (32, 8))
        shim = self.header.shim(self.header.calls)
        self.assertIn("_Static_assert(sizeof(struct wide_wanlopheng_big) == 32", shim)
        self.assertIn("to->start = (size_t)from->start;", shim)
        self.assertIn("for (size_t i = 0; i < 3; i++) to->bytes[i] = from->bytes[i];", shim)
        for bad in ("struct wanlopheng_x { float f; };", "uint32_t wanlopheng_x(struct wanlopheng_part small);", "long wanlopheng_x(void);"):
            with self.assertRaises(header.Unknown, msg=bad):
                other = header.Header(HEADER + bad + "\n")
                for call in other.calls:
                    other.signature(call)
                for struct in other.structs:
                    other.layout(f"struct {struct}")

    def test_every_call_of_the_header_is_found(self):
        text = (HERE.parent / "include/wanlopheng.h").read_text(encoding="utf-8")
        found = header.Header(text)
        self.assertGreater(len(found.calls), 20)
        self.assertEqual(len({c.name for c in found.calls}), len(found.calls))
        for call in found.calls:
            found.signature(call)
        self.assertEqual(set(run.KINDS), {c.name.removeprefix("wanlopheng_") for c in found.calls}, "the stack of every call is measured")

    def test_functions_that_call_themselves_are_where_they_are_said_to_be(self):
        for name in build.DEEP:
            crate, *module, function = name.split("::")
            if crate == "core":  # the library's sort, whose source is the toolchain's
                continue
            source = (HERE.parent / "crates" / crate / "src" / f"{module[0] if module else 'lib'}.rt").read_text(encoding="utf-8")
            self.assertRegex(source, rf"\bfn {function}\(")

    def test_frames(self):
        usage = "out/m.ll:a\t100\tstatic\nout/m.ll:low::c\t50\tstatic\n"
        self.assertEqual(build.frame_sizes("out/m.c:7:24:wanlopheng_name\t40\tstatic\n"), {"wanlopheng_name": 48})
        text = ('define void @a() {\n  call void @"low::b"()\n  call void @"low::c"()\n}\ndefine void @"low::b"() {\n  call void @"low::c"()\n}\n'
                'define void @"low::c"() {\n}\n')
        self.assertEqual(build.frames(usage, text), {"a": 166, "low::b": 58, "low::c": 58})
        copy = "  call void @llvm.memmove.p0.p0.i32(ptr %a, ptr %b, i32 9, i1 false)"
        copying = text.replace('@"low::c"() {', '@"low::c"() {\n' + copy)
        self.assertEqual(build.frames(usage, copying)["a"], 166 + build.ROUTINE)
        with self.assertRaises(header.Unknown):
            build.frames(usage, text.replace('@"low::c"() {', '@"low::c"() {\n  call void @a()'))
        with self.assertRaises(header.Unknown):
            build.frames(usage.replace("static", "dynamic"), text)


class Page(unittest.TestCase):
    def module(self, text):
        with tempfile.NamedTemporaryFile("w", suffix=".mjs", encoding="utf-8") as file:
            file.write(text)
            file.flush()
            return make.wrapped(file.name)

    def test_a_module_is_wrapped(self):
        text = self.module("import { a, b } from '../low-er.mjs';\nexport const c = a;\nexport async function d() {}\nconst e = b;\n")
        self.assertIn("const { a, b } = module_low_er;\nconst c = a;\nasync function d() {}\nconst e = b;\nreturn { c, d };\n})();\n", text)

    def test_other_shapes_are_refused(self):
        for bad in ("import x from './x.mjs';\n", "import {\n    a,\n} from './x.mjs';\n", "export default 1;\n", "export { a };\n", "import './x.mjs';\n"):
            with self.assertRaises(make.Unfit, msg=bad):
                self.module(bad)

    def test_the_page_is_the_same_each_time(self):
        text = make.page(b"module")
        self.assertEqual(text, make.page(b"module"))
        self.assertEqual(text.count("'sha256-"), 3)
        self.assertNotRegex(text, r"@[A-Z]+@")


if __name__ == "__main__":
    result = unittest.main(exit=False, argv=sys.argv[:1]).result
    bad = len(result.failures) + len(result.errors)
    sys.stderr.flush()
    print(f"{result.testsRun - bad} passed, {bad} failed")
    sys.exit(1 if bad else 0)
