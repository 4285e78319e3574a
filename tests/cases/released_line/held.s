; Enables line 0 behind tick 20
    .name held
    .entry main
    .import intrman 1 1
    .fn register 4
    .fn enable_line 6
    .endi
main:
    addu $s0, $ra, $0
    addu $a0, $0, $0
    lui $a2, %hi(handles)
    addiu $a2, $a2, %lo(handles)
    jal register
    addu $a3, $0, $0
    addiu $t0, $0, 5
before:
    addiu $t0, $t0, -1
    bne $t0, $0, before
    nop
    jal enable_line
    addu $a0, $0, $0
    jr $s0
    addu $v0, $0, $0
handles:
    jr $ra
    addu $v0, $0, $0
