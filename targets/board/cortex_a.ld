/* The board virt of qemu for ARMv7-A: all in its one memory. */
ENTRY(_start)
MEMORY { RAM : ORIGIN = 0x40000000, LENGTH = 64M }
PROVIDE(stack_top = 0x40000000 + 64M);
SECTIONS {
    .text : { KEEP(*(.vectors)) *(.text .text.*) *(.rodata .rodata.* .srodata .srodata.*) } > RAM
    .ARM.exidx : { *(.ARM.exidx*) } > RAM
    .bss : { . = ALIGN(8); bss_start = .; *(.bss .bss.* .sbss .sbss.* COMMON) . = ALIGN(8); bss_end = .; } > RAM
    .data : { *(.data .data.* .sdata .sdata.*) } > RAM
}
ASSERT(SIZEOF(.data) == 0, "nothing copies what is not zero at first")
