; The second takes all free memory, frees the block of the first, and makes a thread, whose stack is that block
    .name takes
    .entry main
main:
    addu $s0, $ra, $0
    syscall 263
    addu $a1, $v0, $0
    addu $a0, $0, $0
    syscall 260
    lui $a0, 1
    syscall 261
    lui $a0, %hi(param)
    addiu $a0, $a0, %lo(param)
    syscall 772 ; over a stub
    lui $t0, 1
    lw $t1, 20($t0)
    addiu $t2, $0, -1
    bne $t1, $t2, bad
    sll $v0, $v0, 2
    jr $s0
    nop
bad:
    jr $s0
    addiu $v0, $0, 400
    .data
param:
    .word 0, 0, main, 256, 20
