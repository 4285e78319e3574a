; Returns from an exception by coprocessor 0
    .name fault
    nop
    .word 0x42000010
    jr $ra
    addu $v0, $0, $0
