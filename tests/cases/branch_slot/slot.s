; A line that is raised behind a branch comes after the instruction in its slot. Line 1 is raised twice while it is
; disabled, and comes once, when it is enabled
    .name slot
    .entry main
    .import intrman 1 1
    .fn register 4
    .fn enable_line 6
    .endi
main:
    addu $s0, $ra, $0
    addu $a0, $0, $0
    lui $a2, %hi(again)
    addiu $a2, $a2, %lo(again)
    jal register
    addu $a3, $0, $0
    jal enable_line
    addu $a0, $0, $0
    addiu $a0, $0, 1
    lui $a2, %hi(again)
    addiu $a2, $a2, %lo(again)
    jal register
    addiu $a3, $0, 1
    nop
    addiu $t0, $0, 100
loop:
    addiu $t0, $t0, -1
    bne $t0, $0, loop
    nop
    jal enable_line
    addiu $a0, $0, 1
    jr $s0
    addu $v0, $0, $0
again:
    jr $ra
    addiu $v0, $0, 1
