; An operation of coprocessor 2
    .name fault
    nop
    .word 0x4A000001
    jr $ra
    addu $v0, $0, $0
