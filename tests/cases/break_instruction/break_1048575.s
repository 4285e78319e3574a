    .name fault
    nop
    break 1048575
    jr $ra
    addu $v0, $0, $0
