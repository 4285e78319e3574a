    .name fault
    lui $t0, 0x8000
    nop
    nop
    addi $0, $t0, -1
    jr $ra
    addu $v0, $0, $0
