; WaitEventFlag writes a word at $a3, which is no multiple of 4
    .name place
    addu $a0, $0, $0
    lui $a3, 0x10
    addiu $a3, $a3, 2
    syscall 1290
