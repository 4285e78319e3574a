; Threads that wait for a block of a pool are terminated, released, suspended and resumed: what is given back goes to
; none that waits no more. What a thread has taken stays out when it ends. This module's block is the 0x500 bytes from
; 0x10000 on, so the pool begins at 0x10500
    .name ends
    .import thfpool 1 1
    .fn create_pool 4
    .fn delete_pool 5
    .fn allocate 6
    .fn try_allocate 7
    .fn give 8
    .fn give_in_handler 9
    .fn refer_pool 11
    .fn refer_pool_in_handler 12
    .endi
; takes a block of the pool that its argument names, and stores what that answers
waits:
    addu $s0, $ra, $0
    jal allocate
    nop
    lui $t0, %hi(seen)
    addiu $t0, $t0, %lo(seen)
    jr $s0
    sw $v0, 0($t0)
    .data
rows:
    .word create_pool, words, 0, 1
    .word allocate, 1, 0, 0x10500
    .word create, waiting, 0, 2
    .word create, waiting, 0, 3
    .word create, waiting, 0, 4
    .word start, 2, 1, 0
    .word start, 3, 1, 0
    .word start, 4, 1, 0
    .word refer_pool, 1, status, 0
    .word peek, status_20, 0, 3
    .word terminate, 2, 0, 0
    .word refer_pool, 1, status, 0
    .word peek, status_20, 0, 2
    .word release, 3, 0, 0
    .word peek, seen, 0, -418
    .word refer_pool, 1, status, 0
    .word peek, status_20, 0, 1
    .word suspend, 4, 0, 0
    .word give, 1, 0x10500, 0
    .word refer_pool, 1, status, 0
    .word peek, status_16, 0, 0
    .word peek, status_20, 0, 0
    .word peek, seen, 0, -418
    .word resume, 4, 0, 0
    .word peek, seen, 0, 0x10500
    .word delete, 4, 0, 0
    .word try_allocate, 1, 0, -400
    .word give, 1, 0x10500, 0
    .word poke, seen, 0, 0
    .word start, 2, 1, 0
    .word peek, seen, 0, 0x10500
    .word try_allocate, 1, 0, -400
    .word 0
words:
    .word 1, 0, 16, 1
waiting:
    .word 0, 0, waits, 256, 5
seen:
    .word 0
status:
    .word 0, 0, 0, 0
status_16:
    .word 0
status_20:
    .word 0
