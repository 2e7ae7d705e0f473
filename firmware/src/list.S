/* The list itself, byte for byte the file that LIST names. It may be written: the second run changes what is owed. */
    .section .data.list, "aw", %progbits
    .globl list_start
list_start:
    .incbin LIST
    .globl list_end
list_end:
    .section .note.GNU-stack, "", %progbits
