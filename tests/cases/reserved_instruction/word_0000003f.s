; No function of the register instructions
    .name fault
    nop
    .word 0x0000003F
    jr $ra
    addu $v0, $0, $0
