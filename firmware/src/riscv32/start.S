/* The start on a bare 32-bit RISC-V processor, and how it asks the emulator: by three instructions, none of them compressed, in one page. */
    .section .vectors, "ax", @progbits
    .globl start
start:
    la sp, stack_top
    la t0, trapped
    .option arch, +zicsr
    csrw mtvec, t0
    j run

    /* The register has the handler's address without its lowest two bits. */
    .balign 4
trapped:
    j fault

    .text
    .balign 16
    .option norvc
    .globl semihosting
semihosting:
    slli zero, zero, 0x1f
    ebreak
    srai zero, zero, 7
    ret
    .section .note.GNU-stack, "", @progbits
