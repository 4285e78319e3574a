; Two threads wait, the first of priority 30, the second of 20: a signal wakes the second by priority, the first by
; arrival. Which one runs is told by the trace
    .name waiters
    .import thsemap 1 1
    .fn create_sema 4
    .fn delete_sema 5
    .fn signal 6
    .fn signal_in_handler 7
    .fn wait 8
    .fn poll 9
    .fn refer_sema 11
    .fn refer_sema_in_handler 12
    .endi
; waits for the semaphore that its argument names, and stores what that answers
waits:
    addu $s0, $ra, $0
    jal wait
    nop
    lui $t0, %hi(seen)
    addiu $t0, $t0, %lo(seen)
    jr $s0
    sw $v0, 0($t0)
    .data
rows:
    .word create_sema, by_priority, 0, 1
    .word create_sema, by_arrival, 0, 2
    .word create, worse, 0, 2
    .word create, better, 0, 3
    .word create, worse, 0, 4
    .word create, better, 0, 5
    .word change, 0, 40, 0
    .word start, 2, 1, 0
    .word start, 3, 1, 0
    .word start, 4, 2, 0
    .word start, 5, 2, 0
    .word refer_sema, 1, status, 0
    .word peek, status_20, 0, 2
    .word wakeup, 2, 0, 0
    .word refer, 2, status, 0
    .word peek, status_8, 0, 4
    .word peek, status_36, 0, 3
    .word peek, status_40, 0, 1
    .word peek, status_44, 0, 1
    .word signal, 1, 0, 0
    .word peek, seen, 0, 0
    .word refer, 3, status, 0
    .word peek, status_8, 0, 0x10
    .word refer, 2, status, 0
    .word peek, status_8, 0, 4
    .word refer_sema, 1, status, 0
    .word peek, status_16, 0, 0
    .word peek, status_20, 0, 1
    .word signal, 2, 0, 0
    .word refer, 4, status, 0
    .word peek, status_8, 0, 0x10
    .word refer, 5, status, 0
    .word peek, status_8, 0, 4
    .word signal, 1, 0, 0
    .word signal, 1, 0, 0
    .word signal, 2, 0, 0
    .word 0
by_priority:
    .word 1, 0, 0, 1
by_arrival:
    .word 0, 0, 0, 1
worse:
    .word 0, 0, waits, 256, 30
better:
    .word 0, 0, waits, 256, 20
seen:
    .word 1
status:
    .word 0, 0
status_8:
    .word 0, 0
status_16:
    .word 0
status_20:
    .word 0, 0, 0, 0
status_36:
    .word 0
status_40:
    .word 0
status_44:
    .word 0
