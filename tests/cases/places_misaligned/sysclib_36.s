; strtol writes a word at $a1, which is no multiple of 4
    .name place
    lui $a1, 0x10
    addiu $a1, $a1, 2
    addiu $a2, $0, 10
    syscall 2596
