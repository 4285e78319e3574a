    .name fault
    lui $t0, 0x10
    lw $t1, 2($t0)
    jr $ra
    addu $v0, $0, $0
