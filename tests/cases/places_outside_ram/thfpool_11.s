; ReferFplStatus writes six words at $a1, and RAM ends before the last
    .name place
    addu $a0, $0, $0
    lui $a1, 0x20
    addiu $a1, $a1, -20
    syscall 2315
