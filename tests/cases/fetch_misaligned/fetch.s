    .name fault
    addiu $t0, $ra, 2
    jr $t0
    addiu $t0, $0, 1
