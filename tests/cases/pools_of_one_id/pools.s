; A variable and a fixed pool have the id 1, and each has three waiters, of which a handler terminates one and releases
; one. What is given back to one pool goes to its own waiter, and a deletion wakes its own alone. This module's block is
; the 0x700 bytes from 0x10000 on, so the pools begin at 0x10700
    .name pools
    .import thvpool 1 1
    .fn create_variable 4
    .fn delete_variable 5
    .fn allocate_variable 6
    .fn give_variable 8
    .fn refer_variable 11
    .fn refer_variable_in_handler 12
    .endi
    .import thfpool 1 1
    .fn create_fixed 4
    .fn delete_fixed 5
    .fn allocate_fixed 6
    .fn give_fixed 8
    .fn refer_fixed 11
    .fn refer_fixed_in_handler 12
    .endi
; take 16 bytes of the variable pool 1, and a block of the fixed one, and store the answer at $a0
takes_variable:
    addu $s0, $ra, $0
    addu $s1, $a0, $0
    addiu $a0, $0, 1
    jal allocate_variable
    addiu $a1, $0, 16
    jr $s0
    sw $v0, 0($s1)
takes_fixed:
    addu $s0, $ra, $0
    addu $s1, $a0, $0
    jal allocate_fixed
    addiu $a0, $0, 1
    jr $s0
    sw $v0, 0($s1)
    .data
rows:
    .word create_variable, words, 0, 1
    .word create_fixed, words, 0, 1
    .word allocate_variable, 1, 16, 0x10700
    .word allocate_fixed, 1, 0, 0x10800
    .word create, of_variable, 0, 2
    .word create, of_fixed, 0, 3
    .word create, of_variable, 0, 4
    .word create, of_fixed, 0, 5
    .word create, of_variable, 0, 6
    .word create, of_fixed, 0, 7
    .word start, 2, answer_2, 0
    .word start, 3, answer_3, 0
    .word start, 4, answer_4, 0
    .word start, 5, answer_5, 0
    .word start, 6, answer_6, 0
    .word start, 7, answer_7, 0
    .word rows_in_handler, handler_rows, 0, 0
    .word peek, answer_2, 0, 1
    .word peek, answer_5, 0, -418
    .word give_variable, 1, 0x10800, -426
    .word give_fixed, 1, 0x10700, -426
    .word give_fixed, 1, 0x10800, 0
    .word peek, answer_7, 0, 0x10800
    .word peek, answer_3, 0, 1
    .word refer_variable, 1, status, 0
    .word peek, status_20, 0, 2
    .word delete_variable, 1, 0, 0
    .word peek, answer_4, 0, -425
    .word peek, answer_6, 0, -425
    .word peek, answer_3, 0, 1
    .word refer_fixed, 1, status, 0
    .word peek, status_20, 0, 1
    .word give_fixed, 1, 0x10800, 0
    .word peek, answer_3, 0, 0x10800
    .word 0
handler_rows:
    .word refer_in_handler, 6, thread_status, 0
    .word peek, thread_status_8, 0, 4
    .word peek, thread_status_36, 0, 6
    .word peek, thread_status_40, 0, 1
    .word refer_in_handler, 7, thread_status, 0
    .word peek, thread_status_8, 0, 4
    .word peek, thread_status_36, 0, 7
    .word peek, thread_status_40, 0, 1
    .word terminate_in_handler, 2, 0, 0
    .word release_in_handler, 5, 0, 0
    .word refer_variable_in_handler, 1, status, 0
    .word peek, status_20, 0, 2
    .word refer_fixed_in_handler, 1, status, 0
    .word peek, status_20, 0, 2
    .word change_in_handler, 7, 4, 0
    .word change_in_handler, 4, 6, 0
    .word 0
words:
    .word 1, 0, 16, 1
of_variable:
    .word 0, 0, takes_variable, 256, 5
of_fixed:
    .word 0, 0, takes_fixed, 256, 5
answer_2:
    .word 1
answer_3:
    .word 1
answer_4:
    .word 1
answer_5:
    .word 1
answer_6:
    .word 1
answer_7:
    .word 1
thread_status:
    .word 0, 0
thread_status_8:
    .word 0, 0, 0, 0, 0, 0, 0
thread_status_36:
    .word 0
thread_status_40:
    .word 0, 0
status:
    .word 0, 0, 0, 0, 0
status_20:
    .word 0
