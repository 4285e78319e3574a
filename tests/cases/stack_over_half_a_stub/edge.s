; The stub stands on an edge of blocks, with its first word before 0x10100. The module frees its block, takes back the
; first 256 bytes of it, in which all its code stands, and all memory from 0x10200 on. What is left is the stack of a
; thread. The call then executes the stub's jump, and the first word of the stack in its slot, which is no instruction
    .name edge
    .entry main
param:
    .word 0, 0, main, 256, 20
main:
    lui $a0, 1
    syscall 261
    addiu $a0, $0, 2
    addiu $a1, $0, 256
    lui $a2, 1
    syscall 260
    addiu $a0, $0, 2
    lui $a1, 0x1E
    ori $a1, $a1, 0xFE00
    lui $a2, 1
    ori $a2, $a2, 0x200
    syscall 260
    lui $a0, %hi(param)
    addiu $a0, $a0, %lo(param)
    syscall 772 ; over a stub
    jal size
    nop
    .word 0, 0, 0, 0, 0, 0, 0, 0, 0, 0, 0, 0, 0, 0, 0, 0, 0, 0
    .word 0, 0, 0, 0, 0, 0, 0, 0, 0, 0, 0, 0, 0, 0, 0, 0, 0, 0
    .import sysmem 1 1
    .fn size 10
    .endi
