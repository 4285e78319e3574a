; Threads wait for a block of a pool of two; one that is given back goes to the thread that came first, and is not free
; in between. This module's block is the 0x600 bytes from 0x10000 on, so the pool begins at 0x10600
    .name waiters
    .import thfpool 1 1
    .fn create_pool 4
    .fn delete_pool 5
    .fn allocate 6
    .fn try_allocate 7
    .fn give 8
    .fn give_in_handler 9
    .fn refer_pool 11
    .fn refer_pool_in_handler 12
    .endi
; takes a block of the pool that the word at $a0 names, and stores the answer behind it
takes:
    addu $s0, $ra, $0
    addu $s1, $a0, $0
    lw $a0, 0($s1)
    jal allocate
    nop
    jr $s0
    sw $v0, 4($s1)
    .data
rows:
    .word create_pool, of_10, 0, 1
    .word allocate, 1, 0, 0x10600
    .word allocate, 1, 0, 0x1060C
    .word create, taking, 0, 2
    .word create, taking, 0, 3
    .word start, 2, first, 0
    .word try_allocate, 1, 0, -400
    .word give, 1, 0x10604, -426
    .word refer_pool, 1, status, 0
    .word peek, status_12, 0, 2
    .word peek, status_16, 0, 0
    .word peek, status_20, 0, 1
    .word refer, 2, thread_status, 0
    .word peek, thread_status_8, 0, 4
    .word peek, thread_status_36, 0, 7
    .word peek, thread_status_40, 0, 1
    .word give, 1, 0x1060C, 0
    .word peek, answer_first, 0, 0x1060C
    .word refer_pool, 1, status, 0
    .word peek, status_16, 0, 0
    .word peek, status_20, 0, 0
    .word try_allocate, 1, 0, -400
; two wait, and two blocks are given back, the later one first
    .word start, 2, first, 0
    .word start, 3, second, 0
    .word give, 1, 0x1060C, 0
    .word peek, answer_first, 0, 0x1060C
    .word peek, answer_second, 0, 0
    .word give, 1, 0x10600, 0
    .word peek, answer_second, 0, 0x10600
    .word give, 1, 0x10600, 0
    .word refer_pool, 1, status, 0
    .word peek, status_16, 0, 1
    .word start, 2, first, 0
    .word peek, answer_first, 0, 0x10600
    .word 0
of_10:
    .word 0, 0, 10, 2
taking:
    .word 0, 0, takes, 256, 5
first:
    .word 1
answer_first:
    .word 0
second:
    .word 1
answer_second:
    .word 0
thread_status:
    .word 0, 0
thread_status_8:
    .word 0, 0, 0, 0, 0, 0, 0
thread_status_36:
    .word 0
thread_status_40:
    .word 0, 0
status:
    .word 0, 0, 0
status_12:
    .word 0
status_16:
    .word 0
status_20:
    .word 0
