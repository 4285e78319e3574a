; One thread waits for both bits and clears, the next for any bit: one call sets both, wakes the first alone, and the
; pattern is 0. A second waiter is refused where there may be one alone. The waiters of a flag that is deleted are
; woken with -425
    .name waiters
    .import thevent 1 1
    .fn create_flag 4
    .fn delete_flag 5
    .fn set 6
    .fn set_in_handler 7
    .fn clear 8
    .fn clear_in_handler 9
    .fn wait_flag 10
    .fn poll_flag 11
    .fn refer_flag 13
    .fn refer_flag_in_handler 14
    .endi
; polls for any bit, and waits for any; the pattern is written
poll_any:
    lui $a3, %hi(pattern)
    addiu $a3, $a3, %lo(pattern)
    j poll_flag
    addiu $a2, $0, 1
wait_any:
    lui $a3, %hi(pattern)
    addiu $a3, $a3, %lo(pattern)
    j wait_flag
    addiu $a2, $0, 1
; waits for both bits of the event flag that its argument names, and clears
waits_for_both:
    addu $s0, $ra, $0
    addiu $a1, $0, 3
    addiu $a2, $0, 16
    lui $a3, %hi(of_both)
    jal wait_flag
    addiu $a3, $a3, %lo(of_both)
    lui $t0, %hi(both_saw)
    addiu $t0, $t0, %lo(both_saw)
    jr $s0
    sw $v0, 0($t0)
; waits for any bit of it
waits_for_any:
    addu $s0, $ra, $0
    addiu $a1, $0, 1
    addiu $a2, $0, 1
    lui $a3, %hi(of_any)
    jal wait_flag
    addiu $a3, $a3, %lo(of_any)
    lui $t0, %hi(any_saw)
    addiu $t0, $t0, %lo(any_saw)
    jr $s0
    sw $v0, 0($t0)
    .data
rows:
    .word create_flag, many, 0, 1
    .word create_flag, one_waiter, 0, 2
    .word create, both, 0, 2
    .word create, any, 0, 3
    .word start, 2, 1, 0
    .word start, 3, 1, 0
    .word refer, 3, status, 0
    .word peek, status_36, 0, 4
    .word peek, status_40, 0, 1
    .word set, 1, 2, 0
    .word peek, of_both, 0, 77
    .word set, 1, 1, 0
    .word peek, both_saw, 0, 0
    .word peek, of_both, 0, 3
    .word peek, of_any, 0, 77
    .word refer_flag, 1, status, 0
    .word peek, status_12, 0, 0
    .word peek, status_16, 0, 1
    .word set, 1, 5, 0
    .word peek, any_saw, 0, 0
    .word peek, of_any, 0, 5
    .word clear, 1, 0, 0
    .word start, 2, 1, 0
    .word start, 3, 1, 0
    .word release, 2, 0, 0
    .word peek, both_saw, 0, -418
    .word start, 2, 1, 0
    .word delete_flag, 1, 0, 0
    .word peek, both_saw, 0, -425
    .word peek, any_saw, 0, -425
    .word start, 2, 2, 0
    .word poll_any, 2, 1, -422
    .word wait_any, 2, 1, -422
    .word terminate, 2, 0, 0
    .word poll_any, 2, 1, -421
    .word 0
many:
    .word 2, 0, 0
one_waiter:
    .word 0, 0, 0
both:
    .word 0, 0, waits_for_both, 256, 5
any:
    .word 0, 0, waits_for_any, 256, 6
pattern:
    .word 0
of_both:
    .word 77
of_any:
    .word 77
both_saw:
    .word 1
any_saw:
    .word 1
status:
    .word 0, 0, 0
status_12:
    .word 0
status_16:
    .word 0, 0, 0, 0, 0
status_36:
    .word 0
status_40:
    .word 0, 0
