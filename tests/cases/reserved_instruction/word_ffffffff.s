; No operation
    .name fault
    nop
    .word 0xFFFFFFFF
    jr $ra
    addu $v0, $0, $0
