; Loads into coprocessor 1
    .name fault
    nop
    .word 0xC4220000
    jr $ra
    addu $v0, $0, $0
