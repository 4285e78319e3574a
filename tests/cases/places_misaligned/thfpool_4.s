; CreateFpl reads four words at $a0, which is no multiple of 4
    .name place
    nop
    lui $a0, 0x10
    addiu $a0, $a0, 2
    syscall 2308
