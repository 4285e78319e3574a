; Is loaded over what is before the stub. It takes the block behind its own, puts a function there that returns 20, and
; is removed
    .name second
    .entry main
main:
    addu $s0, $ra, $0
    addu $a0, $0, $0
    addiu $a1, $0, 256
    syscall 260
    lui $t0, 0x03E0
    addiu $t0, $t0, 8
    sw $t0, 0($v0)
    lui $t0, 0x2402
    addiu $t0, $t0, 20
    sw $t0, 4($v0)
    jr $s0
    addiu $v0, $0, 1
