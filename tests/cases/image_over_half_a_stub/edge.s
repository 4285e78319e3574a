; The stub stands on an edge of blocks, with its first word before 0x10100. The module frees its block, and takes back
; the first 256 bytes of it, in which all its code stands
    .name edge
    .entry main
main:
    addu $s0, $ra, $0
    lui $a0, 1
    syscall 261
    addiu $a0, $0, 2
    addiu $a1, $0, 256
    lui $a2, 1
    syscall 260
    jr $s0
    addu $v0, $0, $0
    .word 0, 0, 0, 0, 0, 0, 0, 0, 0, 0, 0, 0, 0, 0, 0, 0, 0
    .word 0, 0, 0, 0, 0, 0, 0, 0, 0, 0, 0, 0, 0, 0, 0, 0
    .word 0, 0, 0, 0, 0, 0, 0, 0, 0, 0, 0, 0, 0, 0, 0, 0
    .import sysmem 1 1
    .fn size 10
    .endi
