; Loops until the budget is used up. Line 0 comes at that moment, and its handler does not begin any more
    .name loop
    .entry main
    .import intrman 1 1
    .fn register 4
    .fn enable_line 6
    .endi
main:
    addu $a0, $0, $0
    lui $a2, %hi(handles)
    addiu $a2, $a2, %lo(handles)
    jal register
    addu $a3, $0, $0
    jal enable_line
    addu $a0, $0, $0
    nop
loop:
    addiu $t0, $t0, 1
    addiu $t1, $t1, 1
    beq $0, $0, loop
    addiu $t2, $t2, 1
handles:
    jr $ra
    addu $v0, $0, $0
