; Threads wait for memory of a pool, by priority or by arrival, and the priority of one of them changes. What is given
; back goes to the first of the best priority, or to the one that came first; what it leaves, to the next ones. This
; module's block is the 0x700 bytes from 0x10000 on, so the pools begin at 0x10700
    .name priorities
    .import thvpool 1 1
    .fn create_pool 4
    .fn delete_pool 5
    .fn allocate 6
    .fn try_allocate 7
    .fn give 8
    .fn give_in_handler 9
    .fn refer_pool 11
    .fn refer_pool_in_handler 12
    .endi
; takes memory by the words at $a0, the id of a pool and a size, and stores the answer behind them
takes:
    addu $s0, $ra, $0
    addu $s1, $a0, $0
    lw $a0, 0($s1)
    lw $a1, 4($s1)
    jal allocate
    nop
    jr $s0
    sw $v0, 8($s1)
    .data
rows:
    .word create_pool, by_priority, 0, 1
    .word create_pool, by_arrival, 0, 2
    .word allocate, 1, 48, 0x10700
    .word allocate, 2, 48, 0x10800
    .word create, worse, 0, 2
    .word create, better, 0, 3
    .word create, better, 0, 4
    .word create, better, 0, 5
    .word create, better, 0, 6
    .word change, 0, 40, 0
    .word start, 2, of_1, 0
    .word start, 3, of_1, 0
    .word start, 4, of_1, 0
    .word start, 5, of_2, 0
    .word start, 6, of_2, 0
    .word change, 2, 10, 0
    .word change, 3, 20, 0
    .word change, 5, 35, 0
    .word refer, 2, thread_status, 0
    .word peek, thread_status_32, 0, 10
    .word give, 1, 0x10700, 0
    .word refer, 2, thread_status, 0
    .word peek, thread_status_8, 0, 0x10
    .word give, 1, 0x10700, 0
    .word refer, 4, thread_status, 0
    .word peek, thread_status_8, 0, 0x10
    .word refer, 3, thread_status, 0
    .word peek, thread_status_8, 0, 4
    .word give, 1, 0x10700, 0
    .word refer, 3, thread_status, 0
    .word peek, thread_status_8, 0, 0x10
    .word give, 2, 0x10800, 0
    .word refer, 5, thread_status, 0
    .word peek, thread_status_8, 0, 0x10
    .word refer, 6, thread_status, 0
    .word peek, thread_status_8, 0, 4
; waiters of different sizes: 16 bytes for the worse one, and 32 and 48 for two better ones
    .word start, 2, for_16, 0
    .word start, 3, for_32, 0
    .word start, 4, for_48, 0
    .word give, 1, 0x10700, 0
    .word peek, answer_for_32, 0, 0x10700
    .word peek, answer_for_16, 0, 0x10720
    .word peek, answer_for_48, 0, 0
    .word give, 1, 0x10700, 0
    .word peek, answer_for_48, 0, 0
    .word give, 1, 0x10720, 0
    .word peek, answer_for_48, 0, 0x10700
    .word 0
by_priority:
    .word 1, 0, 48
by_arrival:
    .word 0, 0, 48
worse:
    .word 0, 0, takes, 256, 30
better:
    .word 0, 0, takes, 256, 20
of_1:
    .word 1, 48, 0
of_2:
    .word 2, 48, 0
for_16:
    .word 1, 16
answer_for_16:
    .word 0
for_32:
    .word 1, 32
answer_for_32:
    .word 0
for_48:
    .word 1, 48
answer_for_48:
    .word 0
thread_status:
    .word 0, 0
thread_status_8:
    .word 0, 0, 0, 0, 0, 0
thread_status_32:
    .word 0, 0, 0, 0
