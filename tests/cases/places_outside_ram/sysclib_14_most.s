; memset writes all bytes of the address space but the last at $a0, which is 1
    .name place
    addiu $a2, $0, -1
    nop
    nop
    syscall 2574
