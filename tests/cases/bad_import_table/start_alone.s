; The text ends behind the first two words of a table
    .name bad
    jr $ra
    addu $v0, $0, $0
    .word 0x41E00000, 0
    .data
    .word 0x101, 0x69647473, 0x0000006F, 0, 0
