/* The board mps2-an505 as its processor leaves reset, in the secure state: it takes the vectors from the start of the first memory. The emulator
 * loads every section to its place, so nothing is copied at the start. */
MEMORY
{
    first (rwx) : ORIGIN = 0x10000000, LENGTH = 4M
    second (rw) : ORIGIN = 0x38000000, LENGTH = 2M
}

ENTRY(start)

SECTIONS
{
    .vectors : { KEEP(*(.vectors)) } > first
    .text : { *(.text .text.*) } > first
    .rodata : { *(.rodata .rodata.*) } > first
    .ARM.exidx : { *(.ARM.exidx .ARM.exidx.*) } > first
    .data : { *(.data .data.*) } > first
    .bss (NOLOAD) : { bss_start = .; *(.bss .bss.* COMMON) bss_end = .; } > second
    stack_top = ORIGIN(second) + LENGTH(second);
}
