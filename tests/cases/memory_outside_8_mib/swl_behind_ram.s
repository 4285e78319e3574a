    .name fault
    lui $t0, 0x80
    swl $t1, 0($t0)
    jr $ra
    addu $v0, $0, $0
