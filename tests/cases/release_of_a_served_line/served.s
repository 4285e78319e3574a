; Enables the lines 0 and 1 and returns. The handler of 0 takes 34 ticks and leaves its line enabled, that of 1 takes 3 and
; leaves it disabled
    .name served
    .entry main
    .import intrman 1 1
    .fn register 4
    .fn enable_line 6
    .endi
main:
    addu $s0, $ra, $0
    addu $a0, $0, $0
    lui $a2, %hi(serves)
    addiu $a2, $a2, %lo(serves)
    jal register
    addu $a3, $0, $0
    jal enable_line
    addu $a0, $0, $0
    addiu $a0, $0, 1
    lui $a2, %hi(ends)
    addiu $a2, $a2, %lo(ends)
    jal register
    addu $a3, $0, $0
    jal enable_line
    addiu $a0, $0, 1
    jr $s0
    addu $v0, $0, $0
serves:
    addiu $t0, $0, 10
more:
    addiu $t0, $t0, -1
    bne $t0, $0, more
    nop
    jr $ra
    addiu $v0, $0, 1
ends:
    jr $ra
    addu $v0, $0, $0
