    .name fault
    lui $t0, 0x7FFF
    ori $t0, $t0, 0xFFFF
    nop
    addi $t0, $t0, 1
    jr $ra
    addu $v0, $0, $0
