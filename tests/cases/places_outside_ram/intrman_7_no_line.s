; DisableIntr of line 64 has its place for a word at $a1, and RAM ends there
    .name place
    addiu $a0, $0, 64
    lui $a1, 0x20
    addiu $a1, $a1, 0
    syscall 519
