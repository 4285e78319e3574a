; Priorities changed while ready and while waiting, and rotation with dispatch enabled and disabled. The
; order in which the threads run afterwards is that of the trace
    .name prio
returns:
    jr $ra
    nop
sleeps:
    addu $s0, $ra, $0
    jal sleep
    nop
    jr $s0
    nop
    .data
rows:
    .word create, late, 0, 2
    .word create, late, 0, 3
    .word create, late, 0, 4
    .word create, sleeping, 0, 5
    .word create, same, 0, 6
    .word start, 2, 0, 0
    .word start, 3, 0, 0
    .word start, 4, 0, 0
    .word start, 5, 0, 0
    .word start, 6, 0, 0
    .word change, 2, 20, 0
    .word rotate, 20, 0, 0
    .word change, 5, 30, 0
    .word wakeup, 5, 0, 0
    .word disable, 0, 0, 0
    .word rotate, 0, 0, 0
    .word rotate, 8, 0, 0
    .word enable, 0, 0, 0
    .word rotate, 0, 0, 0
    .word change, 0, 25, 0
    .word 0
late:
    .word 0, 0, returns, 256, 20
sleeping:
    .word 0, 0, sleeps, 256, 5
same:
    .word 0, 0, returns, 256, 8
