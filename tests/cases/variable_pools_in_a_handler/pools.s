; What the services of thvpool answer a handler: the numbers for threads answer -100. A thread that a handler wakes runs
; when the handler has ended. This module's block is the 0x600 bytes from 0x10000 on, so the pools begin at
; 0x10600
    .name handled
    .import thvpool 1 1
    .fn create_pool 4
    .fn delete_pool 5
    .fn allocate 6
    .fn try_allocate 7
    .fn give 8
    .fn give_in_handler 9
    .fn refer_pool 11
    .fn refer_pool_in_handler 12
    .endi
; takes 32 bytes of the pool that its argument names, and stores what that answers
waits:
    addu $s0, $ra, $0
    jal allocate
    addiu $a1, $0, 32
    lui $t0, %hi(seen)
    addiu $t0, $t0, %lo(seen)
    jr $s0
    sw $v0, 0($t0)
    .data
rows:
    .word create_pool, of_64, 0, 1
    .word create_pool, of_16, 0, 2
    .word allocate, 1, 48, 0x10600
    .word allocate, 2, 16, 0x10700
    .word create, waiting, 0, 2
    .word start, 2, 1, 0
    .word rows_in_handler, handler_rows, 0, 0
    .word peek, seen, 0, 0x10600
    .word allocate, 1, 32, 0x10620
    .word try_allocate, 1, 1, -400
    .word delete_pool, 1, 0, 0
    .word rows_in_handler, deleted_rows, 0, 0
    .word 0
handler_rows:
    .word create_pool, of_16, 0, -100
    .word create_pool, 2, 0, -100
    .word delete_pool, 1, 0, -100
    .word allocate, 1, 16, -100
    .word give, 1, 0x10600, -100
    .word refer_pool, 1, status, -100
    .word refer_pool, 1, 2, -100
    .word refer_pool_in_handler, 1, status, 0
    .word peek, status, 0, 0
    .word peek, status_4, 0, 9
    .word peek, status_8, 0, 64
    .word peek, status_12, 0, 16
    .word peek, status_16, 0, 16
    .word peek, status_20, 0, 1
    .word try_allocate, 1, 0, -427
    .word try_allocate, 1, 65, -427
    .word try_allocate, 1, 17, -400
    .word try_allocate, 1, 16, 0x10630
    .word try_allocate, 1, 1, -400
    .word give_in_handler, 1, 0x10610, -426
    .word give_in_handler, 1, 0x10700, -426
    .word give_in_handler, 1, 0x10600, 0
    .word peek, seen, 0, 1
    .word give_in_handler, 1, 0x10630, 0
    .word give_in_handler, 1, 0x10630, -426
    .word refer_pool_in_handler, 1, status, 0
    .word peek, status_12, 0, 32
    .word peek, status_16, 0, 32
    .word peek, status_20, 0, 0
    .word try_allocate, 3, 0, -411
    .word give_in_handler, 3, 0, -411
    .word give_in_handler, 0, 0x10600, -411
    .word refer_pool_in_handler, 3, status, -411
    .word 0
deleted_rows:
    .word try_allocate, 1, 16, -411
    .word give_in_handler, 1, 0x10600, -411
    .word refer_pool_in_handler, 1, status, -411
    .word 0
of_64:
    .word 0, 9, 64
of_16:
    .word 0, 0, 16
waiting:
    .word 0, 0, waits, 256, 5
seen:
    .word 1
status:
    .word 0
status_4:
    .word 0
status_8:
    .word 0
status_12:
    .word 0
status_16:
    .word 0
status_20:
    .word 0
