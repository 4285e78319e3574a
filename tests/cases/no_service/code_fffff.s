; The greatest code
    .name code
    syscall 1048575
    jr $ra
    addu $v0, $0, $0
