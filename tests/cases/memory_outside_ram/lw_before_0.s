    .name fault
    addu $t0, $0, $0
    lw $t1, -4($t0)
    jr $ra
    addu $v0, $0, $0
