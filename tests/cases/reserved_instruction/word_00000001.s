; No function of the register instructions
    .name fault
    nop
    .word 0x00000001
    jr $ra
    addu $v0, $0, $0
