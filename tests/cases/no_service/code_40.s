; Number 64 of library 0: there are 64 numbers
    .name code
    syscall 64
    jr $ra
    addu $v0, $0, $0
