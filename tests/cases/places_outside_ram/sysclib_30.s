; strncpy writes five bytes at $a0, and RAM ends before the last
    .name place
    lui $a0, 0x20
    addiu $a0, $a0, -4
    addiu $a2, $0, 5
    syscall 2590
