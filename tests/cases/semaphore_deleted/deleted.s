; Threads of priority 30, 20 and 20 wait for a semaphore, by priority and then by arrival. When it is deleted they are
; woken with -425 in the order in which signals would choose them, which is that of the trace where their priorities
; are equal
    .name deleted
    .import thsemap 1 1
    .fn create_sema 4
    .fn delete_sema 5
    .fn signal 6
    .fn signal_in_handler 7
    .fn wait 8
    .fn poll 9
    .fn refer_sema 11
    .fn refer_sema_in_handler 12
    .endi
; waits for the semaphore that its argument names, and stores what that answers
waits:
    addu $s0, $ra, $0
    jal wait
    nop
    lui $t0, %hi(seen)
    addiu $t0, $t0, %lo(seen)
    jr $s0
    sw $v0, 0($t0)
    .data
rows:
    .word create_sema, by_priority, 0, 1
    .word create_sema, by_arrival, 0, 2
    .word create, worse, 0, 2
    .word create, better, 0, 3
    .word create, better, 0, 4
    .word create, worse, 0, 5
    .word create, better, 0, 6
    .word change, 0, 40, 0
    .word start, 2, 1, 0
    .word start, 3, 1, 0
    .word start, 4, 1, 0
    .word start, 5, 2, 0
    .word start, 6, 2, 0
    .word change, 0, 8, 0
    .word change, 2, 20, 0
    .word change, 3, 21, 0
    .word change, 3, 20, 0
    .word change, 5, 20, 0
    .word delete_sema, 1, 0, 0
    .word delete_sema, 2, 0, 0
    .word change, 0, 40, 0
    .word peek, seen, 0, -425
    .word signal, 1, 0, -408
    .word 0
by_priority:
    .word 1, 0, 0, 1
by_arrival:
    .word 0, 0, 0, 1
worse:
    .word 0, 0, waits, 256, 30
better:
    .word 0, 0, waits, 256, 20
seen:
    .word 0
