; What the services of variable pools refuse, where memory is taken, and the status of a pool. This module's block is
; the 0xB00 bytes from 0x10000 on, so the pools begin at 0x10B00
    .name memory
    .import thvpool 1 1
    .fn create_pool 4
    .fn delete_pool 5
    .fn allocate 6
    .fn try_allocate 7
    .fn give 8
    .fn give_in_handler 9
    .fn refer_pool 11
    .fn refer_pool_in_handler 12
    .endi
    .import sysmem 1 1
    .fn block_size 10
    .endi
    .import intrman 1 1
    .fn turn_off 8
    .fn turn_on 9
    .endi
    .data
rows:
; the attribute is looked at first; a size is 16 to 65,536
    .word create_pool, attribute_2, 0, -401
    .word create_pool, attribute_of_bit_31, 0, -401
    .word create_pool, of_0, 0, -427
    .word create_pool, of_15, 0, -427
    .word create_pool, of_65537, 0, -427
    .word create_pool, of_most, 0, -427
    .word refer_pool, 1, status, -411
; a pool of 100 bytes has 112, in a block of 256
    .word create_pool, of_100, 0, 1
    .word block_size, 0x10B00, 0, 0x100
    .word refer_pool, 1, status, 0
    .word peek, status, 0, 0
    .word peek, status_4, 0, 7
    .word peek, status_8, 0, 112
    .word peek, status_12, 0, 112
    .word peek, status_16, 0, 112
    .word peek, status_20, 0, 0
    .word create_pool, of_16, 0, 2
    .word create_pool, of_65536, 0, 3
    .word block_size, 0x10C00, 0, 0x100
    .word block_size, 0x10D00, 0, 0x10000
    .word allocate, 2, 16, 0x10C00
    .word allocate, 3, 65536, 0x10D00
    .word refer_pool, 3, status, 0
    .word peek, status, 0, 1
    .word peek, status_4, 0, -1
    .word peek, status_8, 0, 65536
    .word peek, status_12, 0, 0
; sizes that the pool never has
    .word allocate, 1, 0, -427
    .word try_allocate, 1, 0, -427
    .word allocate, 1, 113, -427
    .word try_allocate, 1, 113, -427
    .word allocate, 1, -1, -427
    .word try_allocate, 1, 0x80000010, -427
    .word allocate, 3, 65537, -427
    .word try_allocate, 3, 65536, -400
; memory is taken at the least place, in sizes of 16 bytes, up to the end of the pool
    .word allocate, 1, 1, 0x10B00
    .word allocate, 1, 17, 0x10B10
    .word try_allocate, 1, 32, 0x10B30
    .word try_allocate, 1, 33, -400
    .word try_allocate, 1, 32, 0x10B50
    .word try_allocate, 1, 1, -400
    .word refer_pool, 1, status, 0
    .word peek, status_12, 0, 0
    .word peek, status_16, 0, 0
; what is not out: no start of a range, the same place through KSEG0, what is another pool's, places outside the pool
    .word give, 1, 0x10B20, -426
    .word give, 1, 0x10B01, -426
    .word give, 1, 0x80010B00, -426
    .word give, 1, 0x10B70, -426
    .word give, 1, 0x10C00, -426
    .word give, 2, 0x10B00, -426
    .word give, 1, 0, -426
    .word give, 1, -16, -426
; ranges that are given back join, also with a range that was free
    .word give, 1, 0x10B10, 0
    .word give, 1, 0x10B10, -426
    .word give, 1, 0x10B50, 0
    .word refer_pool, 1, status, 0
    .word peek, status_12, 0, 64
    .word peek, status_16, 0, 32
    .word try_allocate, 1, 33, -400
    .word try_allocate, 1, 16, 0x10B10
    .word give, 1, 0x10B30, 0
    .word refer_pool, 1, status, 0
    .word peek, status_12, 0, 80
    .word peek, status_16, 0, 80
    .word try_allocate, 1, 65, 0x10B20
    .word give, 1, 0x10B00, 0
    .word give, 1, 0x10B20, 0
    .word refer_pool, 1, status, 0
    .word peek, status_12, 0, 96
    .word peek, status_16, 0, 80
    .word give, 1, 0x10B10, 0
; the pool's whole, in which the kernel keeps nothing
    .word poke, 0x10B00, 0x1234, 0
    .word poke, 0x10B6C, 0x5678, 0
    .word allocate, 1, 112, 0x10B00
    .word try_allocate, 1, 112, -400
    .word peek, 0x10B00, 0, 0x1234
    .word give, 1, 0x10B00, 0
    .word peek, 0x10B00, 0, 0x1234
    .word peek, 0x10B6C, 0, 0x5678
; no such pool, before all that is said of a size or a block
    .word allocate, 4, 0, -411
    .word try_allocate, 4, 0, -411
    .word try_allocate, 0, 16, -411
    .word give, 4, 0, -411
    .word delete_pool, 4, 0, -411
    .word delete_pool, 0, 0, -411
    .word refer_pool, 4, status, -411
    .word give_in_handler, 1, 0x10B00, -100
    .word refer_pool_in_handler, 1, status, -100
    .word refer_pool_in_handler, 1, 2, -100
; a thread that cannot wait: also where there is room, and where there is no such pool
    .word disable, 0, 0, 0
    .word allocate, 1, 16, -417
    .word allocate, 4, 0, -417
    .word try_allocate, 1, 16, 0x10B00
    .word enable, 0, 0, 0
    .word turn_off, 0, 0, 0
    .word allocate, 1, 16, -417
    .word allocate, 4, 0, -417
    .word try_allocate, 1, 16, 0x10B10
    .word turn_on, 0, 0, 0
    .word allocate, 1, 16, 0x10B20
; a pool is deleted with all that is out of it, and its id is not given again
    .word delete_pool, 1, 0, 0
    .word block_size, 0x10B00, 0, -1
    .word delete_pool, 1, 0, -411
    .word allocate, 1, 16, -411
    .word give, 1, 0x10B00, -411
    .word create_pool, of_16, 0, 4
    .word allocate, 4, 16, 0x10B00
    .word 0
attribute_2:
    .word 2, 0, 0
attribute_of_bit_31:
    .word 0x80000000, 0, 64
of_0:
    .word 0, 0, 0
of_15:
    .word 0, 0, 15
of_16:
    .word 0, 0, 16
of_100:
    .word 0, 7, 100
of_65536:
    .word 1, -1, 65536
of_65537:
    .word 0, 0, 65537
of_most:
    .word 0, 0, -1
status:
    .word 0
status_4:
    .word 0
status_8:
    .word 0
status_12:
    .word 0
status_16:
    .word 0
status_20:
    .word 0
