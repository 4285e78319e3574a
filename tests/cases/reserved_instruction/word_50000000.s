; Branches likely, which the R3000 has not
    .name fault
    nop
    .word 0x50000000
    jr $ra
    addu $v0, $0, $0
