; ReferThreadStatus of an unknown id has its place for twelve words at $a1, and RAM ends before the last
    .name place
    addiu $a0, $0, 99
    lui $a1, 0x20
    addiu $a1, $a1, -44
    syscall 790
