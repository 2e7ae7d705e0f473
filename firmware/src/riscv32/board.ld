/* The machine `virt`: without a BIOS its processor begins at the start of the memory. The emulator loads every section to its place, so nothing is
 * copied at the start. */
MEMORY
{
    first (rx) : ORIGIN = 0x80000000, LENGTH = 8M
    second (rw) : ORIGIN = 0x80800000, LENGTH = 8M
}

ENTRY(start)

SECTIONS
{
    .vectors : { KEEP(*(.vectors)) } > first
    .text : { *(.text .text.*) } > first
    .rodata : { *(.rodata .rodata.* .srodata .srodata.*) } > first
    .data : { *(.data .data.* .sdata .sdata.*) } > second
    .bss (NOLOAD) : { bss_start = .; *(.sbss .sbss.* .bss .bss.* COMMON) bss_end = .; } > second
    stack_top = ORIGIN(second) + LENGTH(second);
}
