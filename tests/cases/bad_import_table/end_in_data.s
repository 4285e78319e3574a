; The two words 0 of a table stand in the data
    .name bad
    .word 0x41E00000, 0, 0x101, 0x69647473, 0x0000006F
    .word 0x03E00008, 0x24000004
    .word 0x03E00008, 0x24000004
    .word 0
    .data
    .word 0
