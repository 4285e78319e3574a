; What the forms of thsemap for handlers answer, and that the numbers for threads answer -100. A thread that a handler
; wakes runs when the handler has ended
    .name handled
    .import thsemap 1 1
    .fn create_sema 4
    .fn delete_sema 5
    .fn signal 6
    .fn signal_in_handler 7
    .fn wait 8
    .fn poll 9
    .fn refer_sema 11
    .fn refer_sema_in_handler 12
    .endi
; waits for the semaphore that its argument names, and stores what that answers
waits:
    addu $s0, $ra, $0
    jal wait
    nop
    lui $t0, %hi(seen)
    addiu $t0, $t0, %lo(seen)
    jr $s0
    sw $v0, 0($t0)
    .data
rows:
    .word create_sema, words, 0, 1
    .word create, waiting, 0, 2
    .word start, 2, 1, 0
    .word rows_in_handler, handler_rows, 0, 0
    .word peek, seen, 0, 0
    .word refer_sema, 1, status, 0
    .word peek, status_16, 0, 2
    .word delete_sema, 1, 0, 0
    .word rows_in_handler, deleted_rows, 0, 0
    .word 0
handler_rows:
    .word create_sema, words, 0, -100
    .word create_sema, 2, 0, -100
    .word delete_sema, 1, 0, -100
    .word signal, 1, 0, -100
    .word wait, 1, 0, -100
    .word poll, 1, 0, -100
    .word refer_sema, 1, status, -100
    .word refer_sema, 1, 2, -100
    .word refer_sema_in_handler, 1, status, 0
    .word peek, status_16, 0, 0
    .word peek, status_20, 0, 1
    .word signal_in_handler, 1, 0, 0
    .word peek, seen, 0, 1
    .word refer_sema_in_handler, 1, status, 0
    .word peek, status_16, 0, 0
    .word peek, status_20, 0, 0
    .word signal_in_handler, 1, 0, 0
    .word signal_in_handler, 1, 0, 0
    .word signal_in_handler, 1, 0, -420
    .word signal_in_handler, 2, 0, -408
    .word signal_in_handler, 0, 0, -408
    .word refer_sema_in_handler, 2, status, -408
    .word 0
deleted_rows:
    .word signal_in_handler, 1, 0, -408
    .word refer_sema_in_handler, 1, status, -408
    .word 0
words:
    .word 0, 0, 0, 2
waiting:
    .word 0, 0, waits, 256, 5
seen:
    .word 1
status:
    .word 0, 0, 0, 0
status_16:
    .word 0
status_20:
    .word 0
