    .name fault
    lui $t1, 0x8000
    nop
    addu $t0, $0, $0
    sub $t0, $t0, $t1
    jr $ra
    addu $v0, $0, $0
