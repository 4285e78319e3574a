; Two threads wait for 48 and 16 bytes of a pool of 64; what is given back goes to each waiter whose size then fits, in
; order, and where none fits it is free. This module's block is the 0x700 bytes from 0x10000 on, so the pool begins at
; 0x10700
    .name waiters
    .import thvpool 1 1
    .fn create_pool 4
    .fn delete_pool 5
    .fn allocate 6
    .fn try_allocate 7
    .fn give 8
    .fn give_in_handler 9
    .fn refer_pool 11
    .fn refer_pool_in_handler 12
    .endi
; takes memory by the words at $a0, the id of a pool and a size, and stores the answer behind them
takes:
    addu $s0, $ra, $0
    addu $s1, $a0, $0
    lw $a0, 0($s1)
    lw $a1, 4($s1)
    jal allocate
    nop
    jr $s0
    sw $v0, 8($s1)
    .data
rows:
    .word create_pool, of_64, 0, 1
    .word allocate, 1, 20, 0x10700
    .word allocate, 1, 20, 0x10720
    .word create, taking, 0, 2
    .word create, taking, 0, 3
    .word create, taking, 0, 4
    .word create, taking, 0, 5
    .word start, 2, for_48, 0
    .word start, 3, for_16, 0
    .word refer_pool, 1, status, 0
    .word peek, status_12, 0, 0
    .word peek, status_16, 0, 0
    .word peek, status_20, 0, 2
    .word refer, 2, thread_status, 0
    .word peek, thread_status_8, 0, 4
    .word peek, thread_status_36, 0, 6
    .word peek, thread_status_40, 0, 1
    .word give, 1, 0x10700, 0
    .word peek, answer_for_16, 0, 0x10700
    .word peek, answer_for_48, 0, 0
    .word refer_pool, 1, status, 0
    .word peek, status_12, 0, 16
    .word peek, status_16, 0, 16
    .word peek, status_20, 0, 1
    .word give, 1, 0x10720, 0
    .word peek, answer_for_48, 0, 0x10710
    .word refer_pool, 1, status, 0
    .word peek, status_12, 0, 0
    .word peek, status_20, 0, 0
; one range serves two waiters, behind one that is too large; the last one waits on
    .word poke, answer_for_16, 0, 0
    .word start, 2, for_64, 0
    .word start, 3, for_16, 0
    .word start, 4, for_32, 0
    .word start, 5, for_1, 0
    .word give, 1, 0x10710, 0
    .word peek, answer_for_16, 0, 0x10710
    .word peek, answer_for_32, 0, 0x10720
    .word peek, answer_for_1, 0, 0
    .word refer_pool, 1, status, 0
    .word peek, status_12, 0, 0
    .word peek, status_20, 0, 2
    .word give, 1, 0x10700, 0
    .word peek, answer_for_1, 0, 0x10700
; what is too little for the waiter is taken meanwhile
    .word give, 1, 0x10710, 0
    .word refer_pool, 1, status, 0
    .word peek, status_12, 0, 16
    .word peek, status_20, 0, 1
    .word try_allocate, 1, 17, -400
    .word allocate, 1, 16, 0x10710
    .word give, 1, 0x10720, 0
    .word try_allocate, 1, 32, 0x10720
    .word give, 1, 0x10700, 0
    .word give, 1, 0x10720, 0
    .word peek, answer_for_64, 0, 0
    .word give, 1, 0x10710, 0
    .word peek, answer_for_64, 0, 0x10700
    .word refer_pool, 1, status, 0
    .word peek, status_12, 0, 0
    .word peek, status_20, 0, 0
    .word 0
of_64:
    .word 0, 0, 64
taking:
    .word 0, 0, takes, 256, 5
for_48:
    .word 1, 48
answer_for_48:
    .word 0
for_16:
    .word 1, 16
answer_for_16:
    .word 0
for_64:
    .word 1, 64
answer_for_64:
    .word 0
for_32:
    .word 1, 32
answer_for_32:
    .word 0
for_1:
    .word 1, 1
answer_for_1:
    .word 0
thread_status:
    .word 0, 0
thread_status_8:
    .word 0, 0, 0, 0, 0, 0, 0
thread_status_36:
    .word 0
thread_status_40:
    .word 0, 0
status:
    .word 0, 0, 0
status_12:
    .word 0
status_16:
    .word 0
status_20:
    .word 0
