; Stores from coprocessor 2
    .name fault
    nop
    .word 0xE8220000
    jr $ra
    addu $v0, $0, $0
