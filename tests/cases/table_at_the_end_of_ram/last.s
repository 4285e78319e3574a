; Registers the library `last`, whose table is the last 20 bytes of RAM
    .name last
    .entry main
main:
    lui $t0, 0x20
    lui $t1, 0x41C0
    sw $t1, -20($t0)
    addiu $t1, $0, 0x101
    sw $t1, -12($t0)
    lui $t1, 0x7473
    ori $t1, $t1, 0x616C
    sw $t1, -8($t0)
    addiu $a0, $t0, -20
    syscall 6
    jr $ra
    sll $v0, $v0, 2
