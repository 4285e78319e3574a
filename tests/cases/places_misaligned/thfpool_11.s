; ReferFplStatus writes six words at $a1, which is no multiple of 4
    .name place
    addu $a0, $0, $0
    lui $a1, 0x10
    addiu $a1, $a1, 2
    syscall 2315
