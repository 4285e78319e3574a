; Threads wait for a block of a pool, by priority or by arrival, and the priority of one of them changes. The next block
; goes to the first of the best priority, or to the one that came first. This module's block is the 0x600 bytes from
; 0x10000 on, so the pools begin at 0x10600
    .name priorities
    .import thfpool 1 1
    .fn create_pool 4
    .fn delete_pool 5
    .fn allocate 6
    .fn try_allocate 7
    .fn give 8
    .fn give_in_handler 9
    .fn refer_pool 11
    .fn refer_pool_in_handler 12
    .endi
; takes a block of the pool that its argument names, and stores what that answers
waits:
    addu $s0, $ra, $0
    jal allocate
    nop
    lui $t0, %hi(seen)
    addiu $t0, $t0, %lo(seen)
    jr $s0
    sw $v0, 0($t0)
    .data
rows:
    .word create_pool, by_priority, 0, 1
    .word create_pool, by_arrival, 0, 2
    .word allocate, 1, 0, 0x10600
    .word allocate, 2, 0, 0x10700
    .word create, worse, 0, 2
    .word create, better, 0, 3
    .word create, better, 0, 4
    .word create, better, 0, 5
    .word create, better, 0, 6
    .word change, 0, 40, 0
    .word start, 2, 1, 0
    .word start, 3, 1, 0
    .word start, 4, 1, 0
    .word start, 5, 2, 0
    .word start, 6, 2, 0
    .word change, 2, 10, 0
    .word change, 3, 20, 0
    .word change, 5, 35, 0
    .word refer, 2, status, 0
    .word peek, status_32, 0, 10
    .word give, 1, 0x10600, 0
    .word peek, seen, 0, 0x10600
    .word refer, 2, status, 0
    .word peek, status_8, 0, 0x10
    .word give, 1, 0x10600, 0
    .word refer, 4, status, 0
    .word peek, status_8, 0, 0x10
    .word refer, 3, status, 0
    .word peek, status_8, 0, 4
    .word give, 1, 0x10600, 0
    .word refer, 3, status, 0
    .word peek, status_8, 0, 0x10
    .word give, 2, 0x10700, 0
    .word peek, seen, 0, 0x10700
    .word refer, 5, status, 0
    .word peek, status_8, 0, 0x10
    .word refer, 6, status, 0
    .word peek, status_8, 0, 4
    .word 0
by_priority:
    .word 1, 0, 64, 1
by_arrival:
    .word 0, 0, 64, 1
worse:
    .word 0, 0, waits, 256, 30
better:
    .word 0, 0, waits, 256, 20
seen:
    .word 0
status:
    .word 0, 0
status_8:
    .word 0, 0, 0, 0, 0, 0
status_32:
    .word 0, 0, 0, 0
