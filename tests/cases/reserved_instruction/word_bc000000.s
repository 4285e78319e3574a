; An operation on the cache, which the R3000 has not
    .name fault
    nop
    .word 0xBC000000
    jr $ra
    addu $v0, $0, $0
