; The first table asks for a library that there is not, and the second one is bad: that comes first
    .name bad
    .import nowhere 1 1
    .fn nothing 4
    .endi
    .word 0x41E00000, 0, 0x101, 0x69647473, 0x0000006F
    .word 0x03E00008, 0x14000004
    .word 0, 0
