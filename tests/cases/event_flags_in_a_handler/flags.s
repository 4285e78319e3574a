; What the forms of thevent for handlers answer, and that the numbers for threads answer -100. A thread that a handler
; wakes runs when the handler has ended
    .name handled
    .import thevent 1 1
    .fn create_flag 4
    .fn delete_flag 5
    .fn set 6
    .fn set_in_handler 7
    .fn clear 8
    .fn clear_in_handler 9
    .fn wait_flag 10
    .fn poll_flag 11
    .fn refer_flag 13
    .fn refer_flag_in_handler 14
    .endi
; waits for both bits of the event flag that its argument names, and stores what that answers
waits_for_both:
    addu $s0, $ra, $0
    addiu $a1, $0, 3
    addu $a2, $0, $0
    lui $a3, %hi(pattern)
    jal wait_flag
    addiu $a3, $a3, %lo(pattern)
    lui $t0, %hi(seen)
    addiu $t0, $t0, %lo(seen)
    jr $s0
    sw $v0, 0($t0)
; waits for any bit, and polls for it; the pattern has no place
wait_any:
    addu $a3, $0, $0
    j wait_flag
    addiu $a2, $0, 1
poll_any:
    addu $a3, $0, $0
    j poll_flag
    addiu $a2, $0, 1
    .data
rows:
    .word create_flag, words, 0, 1
    .word create, waiting, 0, 2
    .word start, 2, 1, 0
    .word rows_in_handler, handler_rows, 0, 0
    .word peek, seen, 0, 0
    .word refer_flag, 1, status, 0
    .word peek, status_12, 0, 5
    .word delete_flag, 1, 0, 0
    .word rows_in_handler, deleted_rows, 0, 0
    .word 0
handler_rows:
    .word create_flag, words, 0, -100
    .word create_flag, 2, 0, -100
    .word delete_flag, 1, 0, -100
    .word set, 1, 3, -100
    .word clear, 1, 0, -100
    .word wait_any, 1, 1, -100
    .word poll_any, 1, 1, -100
    .word refer_flag, 1, status, -100
    .word refer_flag, 1, 2, -100
    .word refer_flag_in_handler, 1, status, 0
    .word peek, status_12, 0, 8
    .word peek, status_16, 0, 1
    .word set_in_handler, 1, 1, 0
    .word peek, pattern, 0, 77
    .word set_in_handler, 1, 6, 0
    .word peek, pattern, 0, 15
    .word peek, seen, 0, 1
    .word refer_flag_in_handler, 1, status, 0
    .word peek, status_12, 0, 15
    .word peek, status_16, 0, 0
    .word clear_in_handler, 1, 0x35, 0
    .word set_in_handler, 2, 1, -409
    .word set_in_handler, 0, 1, -409
    .word clear_in_handler, 2, 1, -409
    .word refer_flag_in_handler, 2, status, -409
    .word 0
deleted_rows:
    .word set_in_handler, 1, 1, -409
    .word clear_in_handler, 1, 1, -409
    .word refer_flag_in_handler, 1, status, -409
    .word 0
words:
    .word 0, 0, 8
waiting:
    .word 0, 0, waits_for_both, 256, 5
pattern:
    .word 77
seen:
    .word 1
status:
    .word 0, 0, 0
status_12:
    .word 0
status_16:
    .word 0
