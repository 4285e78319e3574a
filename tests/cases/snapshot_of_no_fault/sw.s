    .name fault
    lui $t0, 0x20
    sw $t1, 0($t0)
    jr $ra
    addu $v0, $0, $0
