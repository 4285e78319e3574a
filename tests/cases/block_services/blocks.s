; What sysmem answers. This module's block is the 0x800 bytes from 0x10000 on, so free memory begins at 0x10800
    .name blocks
    .import sysmem 1 1
    .fn allocate 4
    .fn free_block 5
    .fn memory_size 6
    .fn greatest_free 7
    .fn all_free 8
    .fn block_top 9
    .fn block_size 10
    .endi
; a block of $a1 bytes at $a0
allocate_at:
    addu $a2, $a0, $0
    j allocate
    addiu $a0, $0, 2
    .data
rows:
    .word memory_size, 0, 0, 0x200000
    .word greatest_free, 0, 0, 0x1EF800
    .word all_free, 0, 0, 0x1EF800
; modes 0 and 1 take the least and the greatest place, mode 2 the one that is given
    .word allocate, 0, 1, 0x10800
    .word allocate, 0, 256, 0x10900
    .word allocate, 0, 257, 0x10A00
    .word allocate, 1, 1, 0x1FFF00
    .word allocate, 1, 257, 0x1FFD00
    .word allocate_at, 0x100000, 0x1000, 0x100000
    .word allocate_at, 0x80102000, 0x100, 0x102000
    .word allocate_at, 0xA0102100, 1, 0x102100
    .word greatest_free, 0, 0, 0xFDB00
    .word all_free, 0, 0, 0x1EDF00
; there is no place
    .word allocate, 0, 0, 0
    .word allocate, 1, 0, 0
    .word allocate_at, 0x180000, 0, 0
    .word allocate, 3, 256, 0
    .word allocate, -1, 256, 0
    .word allocate, 0, 0xFDB01, 0
    .word allocate, 1, 0xFDB01, 0
    .word allocate, 0, 0xFFFFFFFF, 0
    .word allocate_at, 0x180080, 0x100, 0
    .word allocate_at, 0x180001, 0x100, 0
    .word allocate_at, 0x100000, 0x100, 0
    .word allocate_at, 0xFFF00, 0x200, 0
    .word allocate_at, 0, 0x100, 0
    .word allocate_at, 0x1FFC00, 0x200, 0
    .word allocate_at, 0x200000, 0x100, 0
    .word allocate_at, 0x40180000, 0x100, 0
; which block holds an address
    .word block_top, 0x100000, 0, 0x100000
    .word block_top, 0x100FFF, 0, 0x100000
    .word block_top, 0x80100FFF, 0, 0x100000
    .word block_top, 0xA0100001, 0, 0x100000
    .word block_size, 0x100FFF, 0, 0x1000
    .word block_size, 0x10A00, 0, 0x200
    .word block_top, 0x1FFFFF, 0, 0x1FFF00
    .word block_size, 0x1FFFFF, 0, 0x100
    .word block_top, rows, 0, 0x10000
    .word block_size, rows, 0, 0x800
    .word block_top, 0xFFFF, 0, 0
    .word block_size, 0xFFFF, 0, 0x10000
    .word block_top, 0x101000, 0, -1
    .word block_size, 0x101000, 0, -1
    .word block_top, 0x200000, 0, -1
    .word block_size, 0x200000, 0, -1
    .word block_top, 0x40100000, 0, -1
; what is no block's start, and the kernel's block, are not freed
    .word free_block, 0x100100, 0, -1
    .word free_block, 0x100001, 0, -1
    .word free_block, 0x180000, 0, -1
    .word free_block, 0, 0, -1
    .word free_block, 0x80000000, 0, -1
    .word free_block, 0x200000, 0, -1
    .word free_block, 0x40100000, 0, -1
; free ranges join, and a hole is filled by the mode that comes to it first
    .word free_block, 0x100000, 0, 0
    .word free_block, 0x100000, 0, -1
    .word free_block, 0x10800, 0, 0
    .word free_block, 0x80010900, 0, 0
    .word free_block, 0xA01FFF00, 0, 0
    .word greatest_free, 0, 0, 0xFDB00
    .word all_free, 0, 0, 0x1EF200
    .word allocate, 0, 0x201, 0x10C00
    .word allocate, 0, 0x200, 0x10800
    .word allocate, 1, 0x100, 0x1FFF00
    .word rows_in_handler, handler_rows, 0, 0
    .word all_free, 0, 0, 0x1EEC00
    .word 0
handler_rows:
    .word memory_size, 0, 0, 0x200000
    .word greatest_free, 0, 0, 0xFDB00
    .word all_free, 0, 0, 0x1EEC00
    .word allocate, 0, 0x100, 0x10F00
    .word block_top, 0x10F80, 0, 0x10F00
    .word block_size, 0x10F80, 0, 0x100
    .word free_block, 0x10F80, 0, -1
    .word free_block, 0x10F00, 0, 0
    .word 0
