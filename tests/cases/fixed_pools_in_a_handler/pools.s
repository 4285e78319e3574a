; What the services of thfpool answer a handler: the numbers for threads answer -100. A thread that a handler wakes runs
; when the handler has ended. This module's block is the 0x600 bytes from 0x10000 on, so the pools begin at 0x10600
    .name handled
    .import thfpool 1 1
    .fn create_pool 4
    .fn delete_pool 5
    .fn allocate 6
    .fn try_allocate 7
    .fn give 8
    .fn give_in_handler 9
    .fn refer_pool 11
    .fn refer_pool_in_handler 12
    .endi
; takes a block of the pool that its argument names, and stores what that answers
waits:
    addu $s0, $ra, $0
    jal allocate
    nop
    lui $t0, %hi(seen)
    addiu $t0, $t0, %lo(seen)
    jr $s0
    sw $v0, 0($t0)
    .data
rows:
    .word create_pool, of_two, 0, 1
    .word create_pool, of_one, 0, 2
    .word allocate, 1, 0, 0x10600
    .word allocate, 1, 0, 0x1060C
    .word create, waiting, 0, 2
    .word start, 2, 1, 0
    .word rows_in_handler, handler_rows, 0, 0
    .word peek, seen, 0, 0x1060C
    .word allocate, 1, 0, 0x10600
    .word try_allocate, 1, 0, -400
    .word delete_pool, 1, 0, 0
    .word rows_in_handler, deleted_rows, 0, 0
    .word 0
handler_rows:
    .word create_pool, of_one, 0, -100
    .word create_pool, 2, 0, -100
    .word delete_pool, 1, 0, -100
    .word allocate, 1, 0, -100
    .word give, 1, 0x10600, -100
    .word refer_pool, 1, status, -100
    .word refer_pool, 1, 2, -100
    .word refer_pool_in_handler, 1, status, 0
    .word peek, status, 0, 0
    .word peek, status_4, 0, 9
    .word peek, status_8, 0, 12
    .word peek, status_12, 0, 2
    .word peek, status_16, 0, 0
    .word peek, status_20, 0, 1
    .word try_allocate, 1, 0, -400
    .word try_allocate, 2, 0, 0x10700
    .word give_in_handler, 1, 0x10604, -426
    .word give_in_handler, 1, 0x10700, -426
    .word give_in_handler, 1, 0x1060C, 0
    .word peek, seen, 0, 1
    .word try_allocate, 1, 0, -400
    .word give_in_handler, 1, 0x10600, 0
    .word give_in_handler, 1, 0x10600, -426
    .word refer_pool_in_handler, 1, status, 0
    .word peek, status_16, 0, 1
    .word peek, status_20, 0, 0
    .word try_allocate, 3, 0, -412
    .word give_in_handler, 3, 0, -412
    .word give_in_handler, 0, 0x10600, -412
    .word refer_pool_in_handler, 3, status, -412
    .word 0
deleted_rows:
    .word try_allocate, 1, 0, -412
    .word give_in_handler, 1, 0x10600, -412
    .word refer_pool_in_handler, 1, status, -412
    .word 0
of_two:
    .word 0, 9, 12, 2
of_one:
    .word 0, 0, 9, 1
waiting:
    .word 0, 0, waits, 256, 5
seen:
    .word 1
status:
    .word 0
status_4:
    .word 0
status_8:
    .word 0
status_12:
    .word 0
status_16:
    .word 0
status_20:
    .word 0
