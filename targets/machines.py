"""The targets, under the names that cargo has for them."""

from dataclasses import dataclass, field

STRICT = ["-mno-unaligned-access"]


@dataclass
class Machine:
    name: str
    clang: list  # what the toolchain's clang is told
    bits: int  # of a pointer
    probes: bool = False  # whether its back end knows probe-stack
    bare: bool = True  # no C library: the archive brings what the compiler calls
    level: str = "-O3"  # ARM has -O2, which leaves least of a name on its stack (docs/STACK.md)
    cc: list = field(default_factory=list)  # Debian's compiler for the tests, and what it is told
    qemu: list = field(default_factory=list)  # what runs its programs
    board: str = ""  # how a bare program starts and speaks: targets/board/BOARD.*


def linux(name, clang, bits, cc, qemu, probes=False):
    words = [f"--target={name.replace('64gc', '64')}", "-fPIC", *clang]
    level = "-O2" if name.startswith(("arm", "aarch64")) else "-O3"
    return Machine(name, words, bits, probes, False, level, cc=[f"{cc}-gcc" if cc else "gcc", "-static"], qemu=[qemu])


def arm(name, clang, cc, qemu, board="cortex_m"):
    return Machine(name, [f"--target={name}", *clang, *([] if "v6m" in name else STRICT)], 32, level="-O2", cc=["arm-none-eabi-gcc", *cc],
                   qemu=["qemu-system-arm", *qemu], board=board)


def riscv(name, march, mabi, qemu, level="-O3"):
    words = [f"-march={march}", f"-mabi={mabi}", "-mcmodel=medany", "-mstrict-align"]
    return Machine(name, [f"--target={name[:7]}-unknown-none-elf", *words], int(name[5:7]), True, level=level, cc=["riscv64-unknown-elf-gcc", *words],
                   qemu=[qemu, *VIRT, "-bios", "none"], board="riscv")


HARD_M4 = ["-mfloat-abi=hard", "-mfpu=fpv4-sp-d16"]
M3, M4 = ["-M", "mps2-an385"], ["-M", "mps2-an386"]
VIRT = ["-M", "virt", "-nic", "none"]
A15, A53 = [*VIRT, "-cpu", "cortex-a15"], [*VIRT, "-cpu", "cortex-a53"]

MACHINES = [
    linux("x86_64-unknown-linux-gnu", ["-march=x86-64"], 64, "", "", True),
    linux("aarch64-unknown-linux-gnu", [], 64, "aarch64-linux-gnu", "qemu-aarch64", True),
    Machine("aarch64-unknown-none", ["--target=aarch64-none-elf", "-mstrict-align", "-mgeneral-regs-only"], 64, True, level="-O2",
            cc=["aarch64-linux-gnu-gcc", "-mstrict-align", "-mgeneral-regs-only"], qemu=["qemu-system-aarch64", *A53], board="aarch64"),
    linux("armv7-unknown-linux-gnueabihf", ["-mfloat-abi=hard"], 32, "arm-linux-gnueabihf", "qemu-arm"),
    linux("armv7-unknown-linux-gnueabi", ["-mfloat-abi=soft"], 32, "arm-linux-gnueabi", "qemu-arm"),
    arm("armv7a-none-eabi", ["-mfloat-abi=soft"], ["-march=armv7-a", "-mfloat-abi=soft"], A15, "cortex_a"),
    arm("armv7a-none-eabihf", ["-mfloat-abi=hard"], ["-march=armv7-a+fp", "-mfloat-abi=hard"], A15, "cortex_a"),
    arm("thumbv6m-none-eabi", ["-mcpu=cortex-m0"], ["-mcpu=cortex-m0"], M3),
    arm("thumbv7m-none-eabi", ["-mcpu=cortex-m3"], ["-mcpu=cortex-m3"], M3),
    arm("thumbv7em-none-eabi", ["-mcpu=cortex-m4", "-mfloat-abi=soft"], ["-mcpu=cortex-m4", "-mfloat-abi=soft"], M4),
    arm("thumbv7em-none-eabihf", ["-mcpu=cortex-m4", *HARD_M4], ["-mcpu=cortex-m4", *HARD_M4], M4),
    linux("riscv64gc-unknown-linux-gnu", ["-march=rv64gc", "-mabi=lp64d"], 64, "riscv64-linux-gnu", "qemu-riscv64", True),
    riscv("riscv64gc-unknown-none-elf", "rv64gc", "lp64d", "qemu-system-riscv64"),
    riscv("riscv64imac-unknown-none-elf", "rv64imac", "lp64", "qemu-system-riscv64"),
    riscv("riscv32imac-unknown-none-elf", "rv32imac", "ilp32", "qemu-system-riscv32", "-Os"),
    # Functions are made parts of others more readily than by default: one that is handed a codepoint by its place keeps it in memory (docs/STACK.md).
    Machine("wasm32-unknown-unknown", ["--target=wasm32-unknown-unknown", "-mllvm", "-inline-threshold=3000"], 32, level="-O3"),
]
