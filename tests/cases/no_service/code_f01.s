; The return of a handler, in a thread
    .name code
    syscall 3841
    jr $ra
    addu $v0, $0, $0
