; What the services of event flags refuse, conditions on bits, and the status of an event flag
    .name flags
    .import thevent 1 1
    .fn create_flag 4
    .fn delete_flag 5
    .fn set 6
    .fn set_in_handler 7
    .fn clear 8
    .fn clear_in_handler 9
    .fn wait_flag 10
    .fn poll_flag 11
    .fn refer_flag 13
    .fn refer_flag_in_handler 14
    .endi
; polls for any bit, for all bits, and for all bits with a clear; the pattern is written
poll_any:
    lui $a3, %hi(pattern)
    addiu $a3, $a3, %lo(pattern)
    j poll_flag
    addiu $a2, $0, 1
poll_all:
    lui $a3, %hi(pattern)
    addiu $a3, $a3, %lo(pattern)
    j poll_flag
    addu $a2, $0, $0
poll_and_clear:
    lui $a3, %hi(pattern)
    addiu $a3, $a3, %lo(pattern)
    j poll_flag
    addiu $a2, $0, 16
; polls for any bit, and the pattern is not written
poll_only:
    addu $a3, $0, $0
    j poll_flag
    addiu $a2, $0, 1
; waits for any bit
wait_any:
    addu $a3, $0, $0
    j wait_flag
    addiu $a2, $0, 1
    .import intrman 1 1
    .fn turn_off 8
    .fn turn_on 9
    .endi
    .data
rows:
    .word create_flag, attribute, 0, -401
    .word create_flag, attribute_3, 0, -401
    .word create_flag, one_waiter, 0, 1
    .word create_flag, many, 0, 2
    .word set, 1, 5, 0
    .word poll_any, 1, 2, -421
    .word peek, pattern, 0, 77
    .word poll_any, 1, 6, 0
    .word peek, pattern, 0, 5
    .word poll_all, 1, 7, -421
    .word poll_all, 1, 5, 0
    .word poll_and_clear, 1, 8, -421
    .word poll_and_clear, 1, 4, 0
    .word peek, pattern, 0, 5
    .word poll_any, 1, 7, -421
    .word set, 1, 8, 0
    .word poll_only, 1, 8, 0
    .word peek, pattern, 0, 5
    .word poll_any, 1, 0, -423
    .word wait_any, 1, 0, -423
    .word poll_any, 3, 0, -409
    .word wait_any, 3, 1, -409
    .word wait_any, 3, 0, -409
    .word wait_any, 0, 1, -409
    .word set, 3, 1, -409
    .word clear, 3, 1, -409
    .word delete_flag, 3, 0, -409
    .word refer_flag, 3, status, -409
    .word clear, 2, 2, 0
    .word refer_flag, 2, status, 0
    .word peek, status, 0, 2
    .word peek, status_4, 0, 9
    .word peek, status_8, 0, 6
    .word peek, status_12, 0, 2
    .word peek, status_16, 0, 0
    .word wait_any, 2, 2, 0
    .word set_in_handler, 1, 1, -100
    .word clear_in_handler, 1, 1, -100
    .word refer_flag_in_handler, 1, status, -100
    .word refer_flag_in_handler, 1, 2, -100
    .word disable, 0, 0, 0
    .word wait_any, 2, 2, -417
    .word wait_any, 3, 0, -417
    .word poll_only, 2, 2, 0
    .word enable, 0, 0, 0
    .word turn_off, 0, 0, 0
    .word wait_any, 2, 2, -417
    .word wait_any, 3, 0, -417
    .word poll_only, 2, 2, 0
    .word turn_on, 0, 0, 0
    .word delete_flag, 1, 0, 0
    .word delete_flag, 1, 0, -409
    .word create_flag, many, 0, 3
    .word 0
attribute:
    .word 1, 0, 0
attribute_3:
    .word 3, 0, 0
one_waiter:
    .word 0, 0, 0
many:
    .word 2, 9, 6
pattern:
    .word 77
status:
    .word 0
status_4:
    .word 0
status_8:
    .word 0
status_12:
    .word 0
status_16:
    .word 0
