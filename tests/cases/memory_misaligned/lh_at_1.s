    .name fault
    lui $t0, 0x10
    lh $t1, 1($t0)
    jr $ra
    addu $v0, $0, $0
