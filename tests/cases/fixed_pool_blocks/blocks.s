; What the services of fixed pools refuse, which block is taken, and the status of a pool. This module's block is the
; 0xA00 bytes from 0x10000 on, so the pools begin at 0x10A00
    .name blocks
    .import thfpool 1 1
    .fn create_pool 4
    .fn delete_pool 5
    .fn allocate 6
    .fn try_allocate 7
    .fn give 8
    .fn give_in_handler 9
    .fn refer_pool 11
    .fn refer_pool_in_handler 12
    .endi
    .import sysmem 1 1
    .fn block_size 10
    .endi
    .import intrman 1 1
    .fn turn_off 8
    .fn turn_on 9
    .endi
; takes $a1 blocks of the pool $a0, and answers the last
takes:
    addu $s3, $ra, $0
    addu $s4, $a0, $0
    addu $s5, $a1, $0
take:
    jal allocate
    addu $a0, $s4, $0
    addiu $s5, $s5, -1
    bne $s5, $0, take
    nop
    jr $s3
    nop
    .data
rows:
; the attribute is looked at first; a block has 1 to 65,536 bytes, and a pool 1 to 1,024 blocks
    .word create_pool, attribute_2, 0, -401
    .word create_pool, attribute_of_bit_31, 0, -401
    .word create_pool, of_0, 0, -427
    .word create_pool, of_65537, 0, -427
    .word create_pool, of_most, 0, -427
    .word create_pool, none, 0, -427
    .word create_pool, count_1025, 0, -427
    .word create_pool, count_most, 0, -427
; so much memory there is not
    .word create_pool, too_much, 0, -400
    .word refer_pool, 1, status, -412
; a block of 10 bytes has 12
    .word create_pool, of_10, 0, 1
    .word block_size, 0x10A00, 0, 0x100
    .word refer_pool, 1, status, 0
    .word peek, status, 0, 0
    .word peek, status_4, 0, 7
    .word peek, status_8, 0, 12
    .word peek, status_12, 0, 2
    .word peek, status_16, 0, 2
    .word peek, status_20, 0, 0
    .word create_pool, of_1, 0, 2
    .word create_pool, of_65536, 0, 3
    .word block_size, 0x10B00, 0, 0x1000
    .word block_size, 0x11B00, 0, 0x10000
    .word refer_pool, 3, status, 0
    .word peek, status, 0, 1
    .word peek, status_4, 0, -1
    .word peek, status_8, 0, 65536
    .word peek, status_12, 0, 1
; the least block that is free, up to the end of the pool
    .word allocate, 1, 0, 0x10A00
    .word allocate, 1, 0, 0x10A0C
    .word try_allocate, 1, 0, -400
    .word allocate, 3, 0, 0x11B00
    .word try_allocate, 3, 0, -400
    .word allocate, 2, 0, 0x10B00
    .word try_allocate, 2, 0, 0x10B04
    .word takes, 2, 1022, 0x11AFC
    .word try_allocate, 2, 0, -400
    .word refer_pool, 2, status, 0
    .word peek, status_8, 0, 4
    .word peek, status_12, 0, 1024
    .word peek, status_16, 0, 0
    .word give, 2, 0x11AFC, 0
    .word give, 2, 0x10B08, 0
    .word refer_pool, 2, status, 0
    .word peek, status_16, 0, 2
    .word try_allocate, 2, 0, 0x10B08
    .word try_allocate, 2, 0, 0x11AFC
; what is no block that is out: no start of one, the same place through KSEG0, another pool's, places outside the pool
    .word give, 1, 0x10A04, -426
    .word give, 1, 0x10A01, -426
    .word give, 1, 0x80010A00, -426
    .word give, 1, 0x10A18, -426
    .word give, 1, 0x10B00, -426
    .word give, 2, 0x10A00, -426
    .word give, 1, 0, -426
    .word give, 1, -16, -426
    .word refer_pool, 1, status, 0
    .word peek, status_16, 0, 0
; a block that is free is not out; the kernel keeps nothing in it
    .word poke, 0x10A00, 0x1234, 0
    .word poke, 0x10A08, 0x5678, 0
    .word give, 1, 0x10A00, 0
    .word give, 1, 0x10A00, -426
    .word give, 1, 0x10A0C, 0
    .word refer_pool, 1, status, 0
    .word peek, status_16, 0, 2
    .word peek, 0x10A00, 0, 0x1234
    .word try_allocate, 1, 0, 0x10A00
    .word peek, 0x10A00, 0, 0x1234
    .word peek, 0x10A08, 0, 0x5678
    .word try_allocate, 1, 0, 0x10A0C
    .word give, 1, 0x10A00, 0
; no such pool
    .word allocate, 4, 0, -412
    .word try_allocate, 4, 0, -412
    .word try_allocate, 0, 0, -412
    .word give, 4, 0x10A0C, -412
    .word delete_pool, 4, 0, -412
    .word delete_pool, 0, 0, -412
    .word refer_pool, 4, status, -412
    .word give_in_handler, 1, 0x10A0C, -100
    .word refer_pool_in_handler, 1, status, -100
    .word refer_pool_in_handler, 1, 2, -100
; a thread that cannot wait: also where a block is free, and where there is no such pool
    .word disable, 0, 0, 0
    .word allocate, 1, 0, -417
    .word allocate, 4, 0, -417
    .word try_allocate, 1, 0, 0x10A00
    .word give, 1, 0x10A00, 0
    .word enable, 0, 0, 0
    .word turn_off, 0, 0, 0
    .word allocate, 1, 0, -417
    .word allocate, 4, 0, -417
    .word try_allocate, 1, 0, 0x10A00
    .word try_allocate, 1, 0, -400
    .word turn_on, 0, 0, 0
; a pool is deleted with all that is out of it, and its id is not given again
    .word delete_pool, 1, 0, 0
    .word block_size, 0x10A00, 0, -1
    .word delete_pool, 1, 0, -412
    .word try_allocate, 1, 0, -412
    .word give, 1, 0x10A00, -412
    .word create_pool, of_10, 0, 4
    .word allocate, 4, 0, 0x10A00
    .word 0
attribute_2:
    .word 2, 0, 0, 0
attribute_of_bit_31:
    .word 0x80000000, 0, 4, 1
of_0:
    .word 0, 0, 0, 1
of_1:
    .word 0, 0, 1, 1024
of_10:
    .word 0, 7, 10, 2
of_65536:
    .word 1, -1, 65536, 1
of_65537:
    .word 0, 0, 65537, 1
of_most:
    .word 0, 0, -1, 1
none:
    .word 0, 0, 4, 0
count_1025:
    .word 0, 0, 4, 1025
count_most:
    .word 0, 0, 4, -1
too_much:
    .word 0, 0, 65536, 1024
status:
    .word 0
status_4:
    .word 0
status_8:
    .word 0
status_12:
    .word 0
status_16:
    .word 0
status_20:
    .word 0
