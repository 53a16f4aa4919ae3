"""tools/targets --test: the archives at work, each on its machine, beside the answers of x86-64."""

import json
import os
import re
import resource
import shutil
import struct
import subprocess
import sys
import tempfile
from pathlib import Path

sys.path.append(str(Path(__file__).resolve().parent.parent / "web/desk"))

import build
import make
from build import HERE, ROOT, WASM_STACK, Failed, archive_names, compile_c, folder, link_wasm, run, sections, toolchain
from machines import MACHINES

# Every call, in the order of targets/test/calls.c and stack.mjs.
KINDS = ["name", "label", "namehash", "screen", "nfd", "nfc", "group", "emoji", "trim", "utf8_write", "utf8_read", "name_bytes", "save", "find", "moved", "forget",
         "reset", "respelled", "keccak256", "sponge_new", "sponge_absorb", "sponge_digest", "report", "soundness", "layout_fault", "unpack"]
TIMES = 100  # how often each name is asked for the time
RUNS = 3  # the least time of so many runs counts, since other programs only add to it
CALLER = 640  # bytes of stack that the test's own function takes for the arguments and the answer of a call

# What the tests of foreign machines need from Debian: the program, and its package.
PACKAGES = {
    "gcc": "gcc", "aarch64-linux-gnu-gcc": "gcc-aarch64-linux-gnu", "arm-linux-gnueabihf-gcc": "gcc-arm-linux-gnueabihf",
    "arm-linux-gnueabi-gcc": "gcc-arm-linux-gnueabi", "riscv64-linux-gnu-gcc": "gcc-riscv64-linux-gnu",
    "arm-none-eabi-gcc": "gcc-arm-none-eabi", "riscv64-unknown-elf-gcc": "gcc-riscv64-unknown-elf",
    "qemu-aarch64": "qemu-user", "qemu-arm": "qemu-user", "qemu-riscv64": "qemu-user", "qemu-x86_64": "qemu-user",
    "qemu-system-arm": "qemu-system-arm", "qemu-system-aarch64": "qemu-system-arm",
    "qemu-system-riscv32": "qemu-system-misc", "qemu-system-riscv64": "qemu-system-misc",
}
LIBC = {"aarch64-linux-gnu-gcc": "libc6-dev-arm64-cross", "arm-linux-gnueabihf-gcc": "libc6-dev-armhf-cross",
        "arm-linux-gnueabi-gcc": "libc6-dev-armel-cross", "riscv64-linux-gnu-gcc": "libc6-dev-riscv64-cross"}


# Where two codepoints are left side by side (docs/STACK.md): `pairs::pair_of` has those that composing looks up at hand while it copies
# the places of the table's sections, and writes them to its frame one behind the other.
SIDE_BY_SIDE = ("armv7a-none-eabihf", "riscv32")


def left_most(machine):
    """Single codepoints of a name that may stay on the stack (docs/STACK.md), and how many in order. ARM of 32 bits has few registers that outlive a call,
    the M0 four, and each function saves those that it uses: a codepoint that is handed down stays in most frames on its way."""
    name = machine.name
    return 24 if name.startswith(("arm", "thumb")) else 16, 2 if name.startswith(SIDE_BY_SIDE) else 1


def check_left(machine, kind, words, in_order, tally):
    most_words, most_in_order = left_most(machine)
    tally.check(words <= most_words and in_order <= most_in_order, f"{kind}: {words} words of a name stay on the stack, {in_order} in order")


def needs(machines):
    """Fails where a program is missing, and says what to install."""
    programs = {p for m in machines for p in ([m.cc[0], m.qemu[0] or "qemu-x86_64"] if m.cc else []) + ["gcc"]}
    missing = sorted(p for p in programs if shutil.which(p) is None)
    if missing:
        packages = sorted({PACKAGES[p] for p in missing} | {LIBC[p] for p in missing if p in LIBC})
        raise Failed(f"{', '.join(missing)} missing; on Debian: apt-get install --no-install-recommends {' '.join(packages)}")


def questions(mode, times, to):
    """The file of questions; answers how many there are."""
    words = ["cargo", "run", "-q", "--release", "--offline", "--manifest-path", ROOT / "rust/Cargo.toml", "-p", "standin", "--bin", "questions", "--"]
    return run([*words, mode, times, to]).strip()


def build_program(machine, archives, sources, to, *words):
    """A C program on the archive of a machine, by Debian's compiler."""
    include = [f"-I{ROOT / 'include'}", f"-I{HERE / 'test'}"]
    flags = ["-std=gnu11", "-O2", "-Wall", "-Wextra", "-Werror", "-Wno-pointer-to-int-cast"]
    if machine.bare:
        sources = [*sources, HERE / "board/start.c"]
        include += [f"-I{HERE / 'board'}", f"-I{HERE / 'include'}"]
        flags += ["-ffreestanding", "-nostdlib", "-nostartfiles", "-static", "-fno-pic", "-no-pie" if "aarch64" in machine.name else "-fno-pie",
                  "-T", HERE / "board" / f"{machine.board}.ld", "-Wl,--build-id=none", "-Wl,-z,noexecstack"]
    run([*machine.cc, *flags, *include, *words, *sources, *archives, "-o", to])


def board_words(machine):
    """The emulator of a bare machine, as far as the program."""
    alone = [word for what in ("display", "monitor", "serial") for word in (f"-{what}", "none")]
    return [*machine.qemu, "-semihosting-config", "enable=on,target=native", *alone, "-kernel"]


def emulate(machine, program, folder, emulator=None):
    """Runs a program in a folder; its status, with what it said where that is not 0, and the processor time that it took."""
    if machine.bare:
        words = [*board_words(machine), program]
    else:
        words = [w for w in (emulator, program) if w]
    before = resource.getrusage(resource.RUSAGE_CHILDREN)
    ran = subprocess.run([str(w) for w in words], cwd=folder, capture_output=True, timeout=3600, text=True, check=False,
                         stdin=subprocess.DEVNULL)
    after = resource.getrusage(resource.RUSAGE_CHILDREN)
    said = f" {ran.stdout + ran.stderr}" if ran.returncode else ""
    return f"{ran.returncode}{said}", after.ru_utime - before.ru_utime + after.ru_stime - before.ru_stime


def answers(machine, program, folder, emulator=None):
    (folder / "answers").unlink(missing_ok=True)
    status, took = emulate(machine, program, folder, emulator)
    if status != "0":
        raise Failed(f"{program.name} ended with status {status}")
    return (folder / "answers").read_bytes(), took


def differences(a, b):
    """How many of the answers differ, and the first place."""
    if len(a) != len(b):
        return max(len(a), len(b)) // 12, 0
    places = [i for i in range(0, len(a), 12) if a[i:i + 12] != b[i:i + 12]]
    return len(places), places[0] // 12 if places else None


class Tally:
    def __init__(self):
        self.passed = self.failed = 0

    def check(self, held, what):
        self.passed, self.failed = self.passed + bool(held), self.failed + (not held)
        if not held:
            print(f"  FAILED: {what}", flush=True)
        return held


def reference(room):
    """The answers of x86-64, by the archives as rt wrote them and nothing else."""
    archives = [ROOT / "target/staticlib" / f"lib{name}.a" for name in archive_names()]
    here = next(m for m in MACHINES if m.name.startswith("x86_64"))
    program = room / "reference"
    build_program(here, archives, [HERE / "test/calls.c", HERE / "test/port_files.c"], program)
    due = {}
    for mode in (0, 2):
        due[mode] = answers(here, program, room / str(mode))[0]
    return due


def stack_rows(told):
    words = struct.unpack(f"<{len(told) // 4}I", told)
    return {kind: words[3 * i:3 * i + 3] for i, kind in enumerate(KINDS)}


def test_machine(machine, room, due, stack, tally):
    """One machine: the header's test, all calls, the stack, the time of a name. Answers what goes into docs/TARGETS.md."""
    port = HERE / "test" / ("port_semihost.c" if machine.bare else "port_files.c")
    archives = [folder(machine) / "libwanlopheng.a"]
    header, calls = room / "header", room / "calls"
    build_program(machine, archives, [ROOT / "rust/engine/tests/header.c"], header)
    build_program(machine, archives, [HERE / "test/calls.c", port], calls)
    emulator = machine.qemu[0] if machine.qemu else None
    status, _ = emulate(machine, header, room, emulator)
    tally.check(status == "0", f"header.c ended with status {status}")
    told, _ = answers(machine, calls, room / "0", emulator)
    other, first = differences(told, due[0])
    tally.check(other == 0, f"{other} of {len(due[0]) // 12} answers differ, the first is number {first}")
    left = stack_rows(answers(machine, calls, room / "1", emulator)[0])
    for kind, (used, words, in_order) in left.items():
        bound = stack["wanlopheng_" + kind]
        tally.check(used <= bound + CALLER, f"{kind}: {used} bytes of stack, over the compiler's frames of {bound}")
        check_left(machine, kind, words, in_order, tally)
    timer = "qemu-x86_64" if machine.name.startswith("x86_64") else emulator
    idle = min(answers(machine, calls, room / "3", timer)[1] for _ in range(RUNS))
    ran = [answers(machine, calls, room / "2", timer) for _ in range(RUNS)]
    tally.check(all(told == due[2] for told, _ in ran), "the sums of the timed calls differ")
    each = (min(took for _, took in ran) - idle) / (TIMES * due["names"])
    tally.check(sections(archives[0])[1] == 0, "the library has data")
    return show(machine, archives[0], sections(archives[0]), left, stack, each, len(due[0]) // 12, other)


def wasm_program(machine, name, source, to):
    """A C test program as a module, by the toolchain's clang; what the port does is left to node."""
    compile_c(machine, source, to.with_suffix(".o"), "-O2", f"-I{HERE / 'test'}", f"-Dmain={name}")
    run([toolchain() / "ld.lld", "-flavor", "wasm", "--no-entry", "--allow-undefined", "-z", f"stack-size={WASM_STACK}", f"--export={name}",
         to.with_suffix(".o"), folder(machine) / "libwanlopheng.a", "-o", to])


def test_wasm(machine, room, due, stack, tally):
    """WebAssembly, by node: the header's test, all calls, the stack, the JavaScript module and the desk's page. Answers the same."""
    library = folder(machine) / "wanlopheng.wasm"
    for name, source in (("run_header", ROOT / "rust/engine/tests/header.c"), ("run_calls", HERE / "test/calls.c")):
        wasm_program(machine, name, source, room / f"{name}.wasm")
    node = ["node", HERE / "test/calls.mjs"]
    status = subprocess.run([*node, room / "run_header.wasm", "run_header", room], check=False).returncode
    tally.check(status == 0, f"header.c ended with status {status}")
    took = {}
    for mode in (0, *(2, 3) * RUNS):
        (room / str(mode) / "answers").unlink(missing_ok=True)
        before = resource.getrusage(resource.RUSAGE_CHILDREN).ru_utime
        status = subprocess.run([*node, room / "run_calls.wasm", "run_calls", room / str(mode)], check=False).returncode
        took.setdefault(mode, []).append(resource.getrusage(resource.RUSAGE_CHILDREN).ru_utime - before)
        tally.check(status == 0, f"the calls ended with status {status}")
    other, first = differences((room / "0/answers").read_bytes(), due[0])
    tally.check(other == 0, f"{other} of {len(due[0]) // 12} answers differ, the first is number {first}")
    left = json.loads(run([*node[:1], HERE / "test/stack.mjs", library, room / "1/questions"]))
    for kind, (used, words, in_order) in left.items():
        bound = stack["wanlopheng_" + kind]
        tally.check(used <= bound, f"{kind}: {used} bytes of stack, over the compiler's frames of {bound}")
        tally.check(2 * bound <= WASM_STACK, f"{kind}: {bound} bytes of stack, over half of the module's")
        check_left(machine, kind, words, in_order, tally)
    link_wasm(folder(machine) / "libwanlopheng.a", room / "small.wasm", 16384)
    (room / "desk.html").write_text(make.page(library.read_bytes()), encoding="utf-8")
    for words in ((ROOT / "web/test.mjs", library, room / "small.wasm"), (ROOT / "web/desk/test.mjs", library, room / "desk.html")):
        ran = subprocess.run([*node[:1], *words], capture_output=True, text=True, check=False)
        counts = re.search(r"(\d+) passed, (\d+) failed\n$", ran.stdout)
        tally.passed += int(counts[1]) if counts else 0
        if not counts or ran.returncode != 0:
            tally.failed += int(counts[2]) if counts else 1
            print(ran.stdout + ran.stderr, flush=True)
    each = (min(took[2]) - min(took[3])) / (TIMES * due["names"])
    return show(machine, library, (library.stat().st_size, 0), left, stack, each, len(due[0]) // 12, other)


def show(machine, file, size, left, stack, each, calls, other):
    """Says how a machine did; a row of the first table, and the column of the second."""
    bound = {kind: stack["wanlopheng_" + kind] for kind in left}
    print(f"  code {size[0]:,}, data {size[1]:,}; {calls:,} calls, {other} differences; {each * 1e3:.2f} ms a name", flush=True)
    print("  stack: " + ", ".join(f"{kind} {used:,} of {bound[kind]:,}" for kind, (used, _, _) in left.items()), flush=True)
    print(f"  left there of names: at most {max(r[1] for r in left.values())} words, {max(r[2] for r in left.values())} in order", flush=True)
    row = [f"`{machine.name}`", f"{file.stat().st_size:,}", f"{size[0]:,}"]
    column = {kind: f"{used:,} / {bound[kind]:,}" for kind, (used, _, _) in left.items()}
    row += [column[k] for k in ("name", "label", "soundness", "unpack")]
    row += [str(max(r[1] for r in left.values())), str(max(r[2] for r in left.values())), f"{each * 1e3:.2f}", f"{calls:,}", str(other)]
    return row, [machine.name, *(column[kind] for kind in KINDS)]


def test_rust(machine, tally, skipped):
    """The crate for this target: built without std and, where there is a Linux, linked and run. Where cargo has no core for it, it is counted as
    skipped."""
    installed = Path(run(["rustc", "--print", "sysroot"]).strip()) / "lib/rustlib" / machine.name / "lib"
    if not list(installed.glob("libcore-*.rlib")):
        skipped.append(machine.name)
        return
    jobs = [["build", "-p", "wanlopheng", "--no-default-features"]]
    if list(installed.glob("libstd-*.rlib")) and not machine.bare:
        jobs.append(["test", "-p", "engine", "--test", "trim", "--test", "keccak"])
    name = machine.name.upper().replace("-", "_")
    there = {f"CARGO_TARGET_{name}_LINKER": machine.cc[0], f"CARGO_TARGET_{name}_RUNNER": machine.qemu[0]} if machine.cc and machine.qemu[0] else {}
    there |= {f"CARGO_TARGET_{name}_RUSTFLAGS": "-C target-feature=+crt-static"} if there else {}
    for job in jobs:
        words = ["cargo", *job, "-q", "--release", "--offline", "--manifest-path", ROOT / "rust/Cargo.toml", "--target", machine.name]
        ran = subprocess.run(words, capture_output=True, text=True, check=False, env={**os.environ, **there})
        tally.check(ran.returncode == 0, f"cargo {job[0]} --target {machine.name}: {ran.stdout}{ran.stderr}")


def prepare(room):
    """The questions of all modes, and the answers that are due."""
    for mode in (0, 1, 2, 3):
        (room / str(mode)).mkdir()
    asked = [questions(mode, TIMES, room / str(mode) / "questions") for mode in (0, 1, 2)]
    (room / "3/questions").write_bytes(struct.pack("<II", 2, 0) + (room / "2/questions").read_bytes()[8:])
    due = reference(room)
    due["names"] = int(re.search(r"(\d+) questions", asked[2])[1])
    return due


HEAD = ["Target", "Archive or module", "Code and constants", "Stack: name", "label", "soundness", "unpack", "Words left", "in order", "ms a name",
        "Calls", "Differences"]


def print_table(rows):
    print("\n".join("| " + " | ".join(row) + " |" for row in [rows[0], ["---"] * len(rows[0]), *rows[1:]]) + "\n", flush=True)


def test(machines, modules):
    """Builds and tests these machines; the last line is 'N passed, M failed'."""
    wasm = [m for m in machines if m.name.startswith("wasm32")]
    if wasm and shutil.which("node") is None:
        print("targets: node is not installed: 1 skipped, WebAssembly", flush=True)
        machines = [m for m in machines if m not in wasm]
    needs(machines)
    tally, skipped, rows = Tally(), [], []
    with tempfile.TemporaryDirectory() as name:
        room = Path(name)
        due = prepare(room) if machines else {}
        for name in archive_names() if machines else []:
            tally.check(build.is_kept(name, room), f"lib{name}.a was not compiled from the module that is kept")
        for machine in machines:
            print(machine.name, flush=True)
            stack = build.build(machine, modules, folder(machine))
            try:
                rows.append((test_wasm if machine in wasm else test_machine)(machine, room, due, stack, tally))
            except Failed as fault:
                tally.check(False, fault)
            test_rust(machine, tally, skipped)
    if len(rows) > 1:
        print_table([HEAD, *(row for row, _ in rows)])
        print_table(list(zip(["Call", *KINDS], *(column for _, column in rows))))
    if skipped:
        print(f"Rust: {len(skipped)} skipped, where cargo has no core: {', '.join(skipped)}")
    print(f"{tally.passed} passed, {tally.failed} failed")
    return 1 if tally.failed else 0
