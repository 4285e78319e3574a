; Moves from coprocessor 0
    .name fault
    nop
    .word 0x40026000
    jr $ra
    addu $v0, $0, $0
