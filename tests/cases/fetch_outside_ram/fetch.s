    .name fault
    lui $t0, 0x20
    jr $t0
    addiu $t0, $0, 1
