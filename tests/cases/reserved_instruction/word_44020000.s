; Moves from coprocessor 1
    .name fault
    nop
    .word 0x44020000
    jr $ra
    addu $v0, $0, $0
