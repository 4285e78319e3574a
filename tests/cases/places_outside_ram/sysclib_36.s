; strtol writes a word at $a1, and RAM ends before it
    .name place
    lui $a1, 0x20
    addiu $a2, $0, 10
    nop
    syscall 2596
