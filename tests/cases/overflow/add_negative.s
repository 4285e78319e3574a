    .name fault
    lui $t0, 0x8000
    nop
    addiu $t1, $0, -1
    add $t0, $t0, $t1
    jr $ra
    addu $v0, $0, $0
