; CreateFpl reads four words at $a0, and RAM ends before the last
    .name place
    nop
    lui $a0, 0x20
    addiu $a0, $a0, -12
    syscall 2308
