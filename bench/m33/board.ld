/* The emulated board mps2-an505, which has a Cortex-M33: all of the program in its first memory, where the vectors are at reset, and the buffers in
 * its second. The emulator fills both. */
MEMORY {
  code (rwx) : ORIGIN = 0x10000000, LENGTH = 4M
  data (rw) : ORIGIN = 0x38000000, LENGTH = 4M
}
ENTRY(start)
SECTIONS {
  .text : { KEEP(*(.vectors)) *(.text* .rodata* .ARM.ex* .data*) } > code
  .bss (NOLOAD) : { *(.bss* COMMON) } > data
  first_stack = ORIGIN(code) + LENGTH(code);
}
