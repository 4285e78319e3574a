; Enables the lines 0 to 4, has interrupts off from tick 101 to 259, and returns
    .name lines
    .entry main
    .import intrman 1 1
    .fn register 4
    .fn enable_line 6
    .fn turn_off 8
    .fn turn_on 9
    .endi
main:
    addu $s0, $ra, $0
    addiu $s1, $0, 4
each:
    addu $a0, $s1, $0
    lui $a2, %hi(again)
    addiu $a2, $a2, %lo(again)
    jal register
    addu $a3, $0, $0
    jal enable_line
    addu $a0, $s1, $0
    bne $s1, $0, each
    addiu $s1, $s1, -1
    jal turn_off
    nop
    addiu $t0, $0, 50
before:
    addiu $t0, $t0, -1
    bne $t0, $0, before
    nop
    jal turn_on
    nop
    jr $s0
    addu $v0, $0, $0
again:
    jr $ra
    addiu $v0, $0, 1
