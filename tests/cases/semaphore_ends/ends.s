; Threads that wait for a semaphore are terminated, released, suspended and resumed: a signal wakes none that waits no
; more
    .name ends
    .import thsemap 1 1
    .fn create_sema 4
    .fn delete_sema 5
    .fn signal 6
    .fn signal_in_handler 7
    .fn wait 8
    .fn poll 9
    .fn refer_sema 11
    .fn refer_sema_in_handler 12
    .endi
; waits for the semaphore that its argument names, and stores what that answers
waits:
    addu $s0, $ra, $0
    jal wait
    nop
    lui $t0, %hi(seen)
    addiu $t0, $t0, %lo(seen)
    jr $s0
    sw $v0, 0($t0)
    .data
rows:
    .word create_sema, empty, 0, 1
    .word create, waiting, 0, 2
    .word create, waiting, 0, 3
    .word create, waiting, 0, 4
    .word start, 2, 1, 0
    .word start, 3, 1, 0
    .word start, 4, 1, 0
    .word refer_sema, 1, status, 0
    .word peek, status_20, 0, 3
    .word terminate, 2, 0, 0
    .word refer_sema, 1, status, 0
    .word peek, status_20, 0, 2
    .word release, 3, 0, 0
    .word peek, seen, 0, -418
    .word refer_sema, 1, status, 0
    .word peek, status_20, 0, 1
    .word suspend, 4, 0, 0
    .word signal, 1, 0, 0
    .word refer_sema, 1, status, 0
    .word peek, status_16, 0, 0
    .word peek, status_20, 0, 0
    .word peek, seen, 0, -418
    .word resume, 4, 0, 0
    .word peek, seen, 0, 0
    .word signal, 1, 0, 0
    .word start, 2, 1, 0
    .word poll, 1, 0, -419
    .word 0
empty:
    .word 1, 0, 0, 5
waiting:
    .word 0, 0, waits, 256, 5
seen:
    .word 0
status:
    .word 0, 0, 0, 0
status_16:
    .word 0
status_20:
    .word 0
