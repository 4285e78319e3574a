; memcpy to the last four bytes of RAM and one behind them
    .name copy
    lui $a0, 0x20
    addiu $a0, $a0, -4
    lui $a1, 1
    addiu $a2, $0, 5
    syscall 2572
