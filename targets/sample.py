"""tools/targets --sample: the Cortex-M program of targets/sample, by the toolchain alone."""

import shutil
import subprocess
import tempfile
from pathlib import Path

import build
from build import HERE, ROOT, compile_c, folder, run, toolchain
from machines import MACHINES
from run import board_words

TARGET = "thumbv7em-none-eabi"


def make(modules):
    """Builds it, and runs it where qemu-system-arm is installed: it has to write what the line program writes."""
    machine = next(m for m in MACHINES if m.name == TARGET)
    build.build(machine, modules, folder(machine))
    program = ROOT / "target/targets/sample.elf"
    with tempfile.TemporaryDirectory() as name:
        room = Path(name)
        words = ["-Os", f"-I{HERE / 'board'}", f'-DTABLE="{ROOT / "data/names.tab"}"']
        compile_c(machine, HERE / "sample/main.c", room / "main.o", *words)
        compile_c(machine, HERE / "board/start.c", room / "start.o", *words)
        run([toolchain() / "ld.lld", "--gc-sections", "-T", HERE / "board/cortex_m.ld", room / "main.o", room / "start.o",
             folder(machine) / "libwanlopheng.a", "-o", program])
    print(f"{program.relative_to(ROOT)}: {told(program)}")
    if shutil.which("qemu-system-arm") is None:
        print("not run: qemu-system-arm is not installed (Debian: qemu-system-arm)")
        return 0
    ran = subprocess.run([*board_words(machine), program], capture_output=True, text=True, check=False, timeout=600, stdin=subprocess.DEVNULL)
    print((ran.stdout + ran.stderr).strip())
    due = (ROOT / "crates/counter/stdout").read_text(encoding="utf-8")
    held = ran.returncode == 0 and ran.stdout + ran.stderr == due
    print("as the line program" if held else f"NOT what the line program writes; status {ran.returncode}")
    return 0 if held else 1


def told(program):
    code, data = build.elf_sizes(program.read_bytes())
    return f"read-only memory {code:,} bytes with names.tab, memory {data:,} besides the stack"
