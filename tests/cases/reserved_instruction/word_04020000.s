; No branch by the sign of a register
    .name fault
    nop
    .word 0x04020000
    jr $ra
    addu $v0, $0, $0
