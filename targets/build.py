"""Archives for other machines, from the modules that were kept of the proved ones (tools/staticlib)."""

import re
import shutil
import struct
import subprocess
import tempfile
from pathlib import Path

from header import Header, Unknown, door_name
from retarget import TRIPLE, retarget

ROOT = Path(__file__).resolve().parent.parent
HERE = ROOT / "targets"

# As the toolchain tells its clang, for every machine (what it says of faults of clang's too); and what tools/staticlib adds: functions with large
# local arrays keep their own frames.
CLANG = ("-mllvm -no-trap-after-noreturn -ffunction-sections -fdata-sections -mllvm -trap-unreachable -mllvm -no-x86-call-frame-opt"
         " -mllvm -disable-machine-licm -mllvm -disable-postra-machine-licm -mllvm -sink-common-insts=false --no-default-config"
         " -no-canonical-prefixes -fintegrated-cc1 -fno-crash-diagnostics -Werror -mllvm -inline-max-stacksize=2048").split()
# What the toolchain tells it for AArch64 alone.
AARCH64 = "-mllvm -aarch64-load-store-renaming=false".split()
# What tools/staticlib adds for x86-64 alone. The first keeps the stack of NFD small, and leaves more single words after refusal 13: elsewhere it was not
# tried. With the second a copy of a sponge, with bytes of a label, stays on the stack of WebAssembly.
X86 = "-mllvm -recursive-inline-max-stacksize=64 -mllvm -inline-threshold=130".split()
C = ["-std=c11", "-ffreestanding", "-nostdinc", "-Wall", "-Wextra", f"-I{HERE / 'include'}", f"-I{ROOT / 'include'}"]

# What a compiler for ARM calls for memcpy, memmove and memset (the run-time ABI of ARM, 4.3.4).
AEABI = {"memcpy": "(void *to, const void *from, size_t count) { memcpy(to, from, count); }",
         "memmove": "(void *to, const void *from, size_t count) { memmove(to, from, count); }",
         "memset": "(void *to, size_t count, int byte) { memset(to, byte, count); }",
         "memclr": "(void *to, size_t count) { memset(to, 0, count); }"}

# What it calls for besides, and the compiler's own library has.
COMPILER = [f"{name}{width}" for name in AEABI for width in ("", "4", "8")] + ["uldivmod", "uidiv", "uidivmod", "lmul", "llsl", "llsr"]

# Functions that call themselves, and how often at most at a time: rounds 4 down to 0; the digits of 64 bits in base 10.
# The library's sort goes down at most twice the logarithm of its length, and its choice of a pivot by eighths: here of 1,024 (`group_numbers` `BATCH`).
DEEP = {"decomposition::expand": 5, "nsm_rows::runs::take_rounds": 5, "byte_sink::put_numeral": 20,
        "core::slice::sort::unstable::quicksort": 21, "core::slice::sort::pivot::median_of_medians": 3}

ROUTINE = 64  # bytes of stack that memcpy and the like may take

WASM_STACK = 262144  # bytes; the linker's own 64 KB are less than a name from bytes may take


class Failed(Exception):
    """A command that failed, or a thing that is missing; the text says which."""


def toolchain():
    """The folder with the toolchain's clang."""
    rt = shutil.which("rt")
    if rt is None:
        raise Failed("the Rattle toolchain (rt) is needed and is not on the PATH")
    found = Path(rt).resolve().parent.parent / "toolchain/bin"
    if not (found / "clang").exists():
        raise Failed(f"{found} has no clang")
    return found


def run(words, **more):
    ran = subprocess.run([str(w) for w in words], capture_output=True, text=True, **more)
    if ran.returncode != 0:
        raise Failed(f"{' '.join(map(str, words))}\n{ran.stdout}{ran.stderr}")
    return ran.stdout


def clang(*words):
    return run([toolchain() / "clang", *words])


def archive_names():
    lines = (ROOT / "archives.txt").read_text(encoding="utf-8").splitlines()
    return [line for line in lines if not line.startswith("#")]


def build_modules():
    """Proves and builds what has changed, as ./install does."""
    script = f"set -eu -o pipefail; me=targets root='{ROOT}'; . '{ROOT}/tools/build.sh'; build_archives"
    if subprocess.run(["bash", "-c", script], check=False).returncode != 0:
        raise Failed("the library is not built")


def read_module(name):
    """The proved module of an archive, as text."""
    kept = ROOT / "target/staticlib" / f"{name}.bc"
    if not kept.exists():
        raise Failed(f"{kept} is missing: run `tools/staticlib {name}`")
    return clang(f"--target={TRIPLE}", "-S", "-emit-llvm", "-Xclang", "-disable-llvm-passes", "-x", "ir", kept, "-o", "-")


def convention(machine):
    """The data layout and the triple that clang has for a machine."""
    text = clang(*machine.clang, "-S", "-emit-llvm", "-x", "c", "/dev/null", "-o", "-")
    return [re.search(rf'^target {what} = "(.*)"$', text, re.M)[1] for what in ("datalayout", "triple")]


def compile_c(machine, source, to, *words):
    clang(*machine.clang, *CLANG, *C, *words, "-c", source, "-o", to)


def bring_mem(machine, room):
    """The routines that a compiler calls for by itself, each in a member of its own: a program that has its own is not disturbed."""
    made = []

    def add(name, source):
        compile_c(machine, source, room / f"{name}.o", "-O2", "-fno-builtin")
        made.append(room / f"{name}.o")

    for name in ("memcpy", "memmove", "memset"):
        add(name, HERE / "mem" / f"{name}.c")
    if machine.name.startswith(("arm", "thumb")):
        for name, body in AEABI.items():
            for width in ("", "4", "8"):
                source = room / f"aeabi_{name}{width}.c"
                callee = "memset" if name == "memclr" else name
                declared = "int byte" if callee == "memset" else "const void *from"
                source.write_text(f"#include <stddef.h>\nvoid *{callee}(void *to, {declared}, size_t count);\n"
                                  f"void __aeabi_{name}{width}{body}\n", encoding="utf-8")
                add(f"aeabi_{name}{width}", source)
    family = next((f for f in ("arm", "thumb", "riscv32") if machine.name.startswith(f)), None)
    if family:
        add("udivmoddi4", HERE / "mem/udivmoddi4.c")
        for source in sorted((HERE / "mem" / family.replace("thumb", "arm")).glob("*.c")):
            add(source.stem, source)
    return made


def frame_sizes(usage):
    """The frame of each function, as the compiler tells it (-fstack-usage), and 8 bytes for a return address that x86-64 does not count."""
    size = {}
    for line in usage.splitlines():
        place, count, how = line.split("\t")
        if how != "static":
            raise Unknown(f"a frame of no fixed size: {line}")
        size[re.sub(r"^.*?\.(?:ll|c:\d+(?::\d+)?):", "", place)] = int(count) + 8
    return size


def frames(usage, text):
    """The most stack that each function of a module can take, by its frames and its calls. A function that was put into its callers has no frame
    of its own; what is called outside the module is memcpy and the like."""
    size = frame_sizes(usage)
    calls, here = {}, None
    for line in text.splitlines():
        if line.startswith("define "):
            here = calls.setdefault(re.search(r'@(?:"([^"]+)"|(\w+))\(', line).expand(r"\1\2"), set())
        elif " call " in line:
            here.add(re.search(r'@(?:"([^"]+)"|([\w.]+))\(', line).expand(r"\1\2"))
    known, open_calls = {}, set()

    def most(name):
        if name in open_calls:
            raise Unknown(f"{name} calls itself: DEEP of targets/build.py has to say how often")
        if name not in known:
            open_calls.add(name)
            often = DEEP.get(name.partition("::<#")[0])  # a generic function's name ends with its instance
            below = calls.get(name, set()) - ({name} if often else set())
            own = size.get(name, 0) * (often or 1) if name in calls else ROUTINE
            known[name] = own + max(map(most, below), default=0)
            open_calls.remove(name)
        return known[name]

    return {name: most(name) for name in calls}


def elf_sizes(body):
    """Bytes of code and constants, and of data, in an ELF file."""
    code, data, wide = 0, 0, body[4] == 2
    start = struct.unpack_from("<Q", body, 40)[0] if wide else struct.unpack_from("<I", body, 32)[0]
    entry, number = struct.unpack_from("<HH", body, 58 if wide else 46)
    for i in range(number):
        _, flags = struct.unpack_from("<IQ" if wide else "<II", body, start + i * entry + 4)
        size = struct.unpack_from("<Q" if wide else "<I", body, start + i * entry + (32 if wide else 20))[0]
        if flags & 2:  # it is there when the program runs
            code, data = (code, data + size) if flags & 1 else (code + size, data)
    return code, data


def objects(path):
    """The ELF objects of an archive."""
    archive, at = path.read_bytes(), 8
    while at < len(archive):
        count = int(archive[at + 48:at + 58])
        body = archive[at + 60:at + 60 + count]
        at += 60 + count + count % 2
        if body[:4] == b"\x7fELF":
            yield body


def sections(path):
    """Bytes of code and constants, and of data, in the objects of an archive."""
    return tuple(map(sum, zip((0, 0), *map(elf_sizes, objects(path)))))


def own_words(machine):
    """What the compiler is told beside CLANG, where a machine has words of its own."""
    return X86 if machine.name.startswith("x86_64") else AARCH64 if machine.name.startswith("aarch64") else []


def is_kept(name, room):
    """Whether the module that is kept of an archive is the one that it was compiled from: compiled again by the same words, it gives the same object."""
    kept, again = ROOT / "target/staticlib", {"module.bc": f"{name}.bc", "module.o": room / "again.o"}
    words = (kept / f"{name}.words").read_text(encoding="utf-8").splitlines()
    if [word for word in words if word.endswith((".bc", ".o"))] != list(again):
        raise Failed(f"{name}.words has other files than {', '.join(again)}")
    run([toolchain() / "clang", *[again.get(word, word) for word in words if not word.startswith("--sysroot=")]], cwd=kept)
    return [(room / "again.o").read_bytes()] == list(objects(kept / f"lib{name}.a"))


def build(machine, modules, to):
    """Writes the archive of a machine, and for wasm32 the module. Answers the most stack that each call can take, by the compiler's frames."""
    header = Header((ROOT / "include/wanlopheng.h").read_text(encoding="utf-8"))
    layout, triple = convention(machine)
    shutil.rmtree(to, ignore_errors=True)
    to.mkdir(parents=True)
    done, members, stack = [], [], {}
    with tempfile.TemporaryDirectory() as folder:
        room = Path(folder)
        for name, text in modules.items():
            changed, calls = retarget(text, header, layout, triple, machine.probes, machine.bits)
            (room / f"{name}.ll").write_text(changed, encoding="utf-8")
            (room / f"{name}_calls.c").write_text(header.shim(calls), encoding="utf-8")
            words = [*machine.clang, *CLANG, *own_words(machine), machine.level, "-fstack-usage"]
            clang(*words, "-c", "-x", "ir", room / f"{name}.ll", "-o", room / f"{name}.o")
            compile_c(machine, room / f"{name}_calls.c", room / f"{name}_calls.o", "-O2", "-fstack-usage")
            members += [room / f"{name}.o", room / f"{name}_calls.o"]
            done += calls
            most = frames((room / f"{name}.su").read_text(encoding="utf-8"), changed)
            above = frame_sizes((room / f"{name}_calls.su").read_text(encoding="utf-8"))
            stack |= {call.name: most[door_name(call)] + above.get(call.name, 0) for call in calls}
        missing = {c.name for c in header.calls} - {c.name for c in done}
        if missing or len(done) != len(header.calls):
            raise Unknown(f"no one archive of archives.txt has {sorted(missing)}")
        members += bring_mem(machine, room) if machine.bare else []
        run([toolchain() / "llvm-ar", "rcsD", to / "libwanlopheng.a", *members])
        if machine.name.startswith("wasm32"):
            link_wasm(to / "libwanlopheng.a", to / "wanlopheng.wasm")
        else:
            check_needs(machine, to / "libwanlopheng.a", room)
    return stack


def check_needs(machine, archive, room):
    """That the library needs nothing of a bare machine, and of another the C library's memcpy, memmove and memset, and the compiler's routines."""
    given = [] if machine.bare else ["memcpy", "memmove", "memset"]
    given += [f"__aeabi_{n}" for n in COMPILER] if not machine.bare and machine.name.startswith("arm") else []
    run([toolchain() / "ld.lld", "-e", "0", "--no-undefined", "-z", "norelro", *[f"--defsym={name}=0" for name in given], "--whole-archive", archive,
         "-o", room / "whole"])


def link_wasm(archive, to, stack=WASM_STACK):
    """The one module with its exports. Its stack lies lowest, so that a call that overran it would trap."""
    header = Header((ROOT / "include/wanlopheng.h").read_text(encoding="utf-8"))
    exports = [f"--export={n}" for n in [c.name for c in header.calls] + ["__heap_base", "__stack_low", "__stack_high"]]
    run([toolchain() / "ld.lld", "-flavor", "wasm", "--no-entry", "--stack-first", "-z", f"stack-size={stack}", "--strip-all", *exports,
         archive, "-o", to])
    to.chmod(0o644)


def folder(machine):
    return ROOT / "target/targets" / machine.name


def told_size(machine, to):
    if machine.name.startswith("wasm32"):
        return f"wanlopheng.wasm {(to / 'wanlopheng.wasm').stat().st_size:,} bytes"
    code, data = sections(to / "libwanlopheng.a")
    return f"code and constants {code:,} bytes, data {data:,}"
