; A handler sends a message whose priority stands outside RAM: to a mailbox that queues by arrival, where it is not
; looked at, and to one that queues by priority
    .name outside
    .entry main
main:
    lui $a0, %hi(by_arrival)
    addiu $a0, $a0, %lo(by_arrival)
    syscall 1540
    lui $a0, %hi(by_priority)
    addiu $a0, $a0, %lo(by_priority)
    syscall 1540
    lui $a0, %hi(soon)
    addiu $a0, $a0, %lo(soon)
    lui $a1, %hi(handles)
    addiu $a1, $a1, %lo(handles)
    syscall 803
    jr $ra
    addu $v0, $0, $0
; the handler of an alarm
handles:
    lui $a1, 0x20
    addiu $a1, $a1, -4
    addiu $a0, $0, 1
    syscall 1543
    addiu $a0, $0, 2
    syscall 1543
    .data
by_arrival:
    .word 0, 0
by_priority:
    .word 4, 0
soon:
    .word 100, 0
