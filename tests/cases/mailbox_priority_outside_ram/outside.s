; The priority of a message that is to be queued by priority stands outside RAM
    .name outside
    .entry main
main:
    lui $a0, %hi(by_priority)
    addiu $a0, $a0, %lo(by_priority)
    syscall 1540
    addiu $a0, $0, 2
    lui $a1, 0x20
    addiu $a1, $a1, -4
    syscall 1542
    addiu $a0, $0, 1
    syscall 1542
    .data
by_priority:
    .word 4, 0
