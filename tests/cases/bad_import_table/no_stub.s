; Between a table's stubs stands a pair of words that is none
    .name bad
    .word 0x41E00000, 0, 0x101, 0x69647473, 0x0000006F
    .word 0x03E00008, 0x24000004
    .word 0x03E00008, 0x34000004
    .word 0, 0
