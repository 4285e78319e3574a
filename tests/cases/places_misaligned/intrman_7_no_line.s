; DisableIntr of line 64 has its place for a word at $a1, which is no multiple of 4
    .name place
    addiu $a0, $0, 64
    lui $a1, 0x10
    addiu $a1, $a1, 2
    syscall 519
