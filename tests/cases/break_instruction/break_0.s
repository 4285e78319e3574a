    .name fault
    nop
    break 0
    jr $ra
    addu $v0, $0, $0
