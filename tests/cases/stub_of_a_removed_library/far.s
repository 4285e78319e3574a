    .name far
    .entry main
main:
    lui $t0, 1
    ori $t0, $t0, 0x280
    lui $t1, 0x41C0
    sw $t1, 0($t0)
    sw $0, 4($t0)
    addiu $t1, $0, 0x101
    sw $t1, 8($t0)
    lui $t1, 0x72
    ori $t1, $t1, 0x6166
    sw $t1, 12($t0)
    sw $0, 16($t0)
    lui $t1, %hi(say)
    addiu $t1, $t1, %lo(say)
    sw $t1, 20($t0)
    sw $0, 24($t0)
    addu $a0, $t0, $0
    syscall 6
    jr $ra
    addu $v0, $0, $0
say:
    lui $a0, %hi(text)
    addiu $a0, $a0, %lo(text)
    syscall 270
    jr $ra
    nop
    .data
text:
    .asciz "hi\n"
