; ReferThreadStatus of an unknown id has its place for twelve words at $a1, which is no multiple of 4
    .name place
    addiu $a0, $0, 99
    lui $a1, 0x10
    addiu $a1, $a1, 2
    syscall 790
