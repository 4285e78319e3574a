; Threads of priority 30, 20 and 20 wait for memory of a pool, by priority and then by arrival. When it is deleted they
; are woken with -425 in the order in which they would be chosen, which is that of the trace where their priorities are
; equal. This module's block is the 0x600 bytes from 0x10000 on, so the pools begin at 0x10600
    .name deleted
    .import thvpool 1 1
    .fn create_pool 4
    .fn delete_pool 5
    .fn allocate 6
    .fn try_allocate 7
    .fn give 8
    .fn give_in_handler 9
    .fn refer_pool 11
    .fn refer_pool_in_handler 12
    .endi
    .import sysmem 1 1
    .fn allocate_block 4
    .fn free_block 5
    .fn all_free 8
    .fn block_size 10
    .endi
; takes 16 bytes of the pool that its argument names, and stores what that answers
waits:
    addu $s0, $ra, $0
    jal allocate
    addiu $a1, $0, 16
    lui $t0, %hi(seen)
    addiu $t0, $t0, %lo(seen)
    jr $s0
    sw $v0, 0($t0)
    .data
rows:
    .word create_pool, by_priority, 0, 1
    .word create_pool, by_arrival, 0, 2
    .word allocate, 1, 16, 0x10600
    .word allocate, 2, 16, 0x10700
    .word create, worse, 0, 2
    .word create, better, 0, 3
    .word create, better, 0, 4
    .word create, worse, 0, 5
    .word create, better, 0, 6
    .word change, 0, 40, 0
    .word start, 2, 1, 0
    .word start, 3, 1, 0
    .word start, 4, 1, 0
    .word start, 5, 2, 0
    .word start, 6, 2, 0
    .word change, 0, 8, 0
    .word change, 2, 20, 0
    .word change, 3, 21, 0
    .word change, 3, 20, 0
    .word change, 5, 20, 0
    .word delete_pool, 1, 0, 0
    .word delete_pool, 2, 0, 0
    .word change, 0, 40, 0
    .word peek, seen, 0, -425
    .word allocate, 1, 16, -411
    .word all_free, 0, 0, 0x1EF500
; the block at the base was freed before: the pool goes on, and there is nothing to free
    .word create_pool, by_arrival, 0, 3
    .word free_block, 0x10600, 0, 0
    .word allocate, 3, 16, 0x10600
    .word all_free, 0, 0, 0x1EF500
    .word delete_pool, 3, 0, 0
    .word all_free, 0, 0, 0x1EF500
; another block starts at the base since, which is freed
    .word create_pool, by_arrival, 0, 4
    .word free_block, 0x10600, 0, 0
    .word allocate_block, 0, 0x200, 0x10600
    .word delete_pool, 4, 0, 0
    .word block_size, 0x10600, 0, -1
    .word all_free, 0, 0, 0x1EF500
; another block holds the base since, and starts before it: it stays
    .word create_pool, by_arrival, 0, 5
    .word create_pool, by_arrival, 0, 6
    .word free_block, 0x10700, 0, 0
    .word delete_pool, 5, 0, 0
    .word allocate_block, 0, 0x200, 0x10600
    .word delete_pool, 6, 0, 0
    .word block_size, 0x10700, 0, 0x200
    .word delete_pool, 6, 0, -411
    .word 0
by_priority:
    .word 1, 0, 16
by_arrival:
    .word 0, 0, 16
worse:
    .word 0, 0, waits, 256, 30
better:
    .word 0, 0, waits, 256, 20
seen:
    .word 0
