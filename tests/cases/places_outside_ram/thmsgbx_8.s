; ReceiveMbx writes a word at $a0, and RAM ends there
    .name place
    nop
    lui $a0, 0x20
    addiu $a0, $a0, 0
    syscall 1544
