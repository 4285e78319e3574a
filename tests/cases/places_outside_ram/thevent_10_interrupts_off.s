; WaitEventFlag, with interrupts off, writes a word at $a3, and RAM ends there
    .name place
    syscall 520
    lui $a3, 0x20
    addiu $a3, $a3, 0
    syscall 1290
