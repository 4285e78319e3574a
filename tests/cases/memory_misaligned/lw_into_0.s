    .name fault
    lui $t0, 0x10
    lw $0, 2($t0)
    jr $ra
    addu $v0, $0, $0
