; Enables the lines 0 and 1, and loops until the budget is used up
    .name loop
    .entry main
    .import intrman 1 1
    .fn register 4
    .fn enable_line 6
    .endi
main:
    addiu $s1, $0, 1
each:
    addu $a0, $s1, $0
    lui $a2, %hi(again)
    addiu $a2, $a2, %lo(again)
    jal register
    addu $a3, $0, $0
    jal enable_line
    addu $a0, $s1, $0
    bne $s1, $0, each
    addiu $s1, $s1, -1
loop:
    addiu $t0, $t0, 1
    beq $0, $0, loop
    addiu $t1, $t1, 1
again:
    jr $ra
    addiu $v0, $0, 1
