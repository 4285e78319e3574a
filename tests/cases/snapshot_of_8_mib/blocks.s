; What sysmem answers with 8 MiB of memory, and where the first stack stands. This module's block is the 0x600 bytes from
; 0x10000 on, so free memory begins at 0x10600
    .name blocks
    .import sysmem 1 1
    .fn allocate 4
    .fn free_block 5
    .fn memory_size 6
    .fn greatest_free 7
    .fn all_free 8
    .fn block_top 9
    .fn block_size 10
    .endi
; a block of $a1 bytes at $a0
allocate_at:
    addu $a2, $a0, $0
    j allocate
    addiu $a0, $0, 2
    .data
rows:
    .word memory_size, 0, 0, 0x800000
    .word greatest_free, 0, 0, 0x7EFA00
    .word all_free, 0, 0, 0x7EFA00
; all that is free is one block
    .word allocate, 0, 0x7EFA01, 0
    .word allocate, 0, 0x7EFA00, 0x10600
    .word greatest_free, 0, 0, 0
    .word all_free, 0, 0, 0
    .word free_block, 0x10600, 0, 0
; the first stack ends with memory, and is filled with bytes 0xFF
    .word create, param, 0, 2
    .word refer, 2, status, 0
    .word peek, status_16, 0, 0x7FFE00
    .word peek, 0x7FFDFC, 0, 0
    .word peek, 0x7FFE00, 0, -1
    .word peek, 0x7FFFFC, 0, -1
    .word block_top, 0x7FFFFF, 0, 0x7FFE00
    .word block_size, 0x807FFFFF, 0, 0x200
    .word allocate, 1, 1, 0x7FFD00
; the end of memory, and the place where 2 MiB would end
    .word block_top, 0x800000, 0, -1
    .word block_top, 0x80800000, 0, -1
    .word block_top, 0xA0800000, 0, -1
    .word allocate_at, 0x800000, 0x100, 0
    .word allocate_at, 0x80800000, 0x100, 0
    .word allocate_at, 0xA0800000, 0x100, 0
    .word allocate_at, 0x7FFC00, 0x200, 0
    .word allocate_at, 0xA07FFC00, 0x100, 0x7FFC00
    .word allocate_at, 0x801FFF00, 0x200, 0x1FFF00
    .word block_top, 0xA0200000, 0, 0x1FFF00
    .word block_top, 0x200100, 0, -1
    .word greatest_free, 0, 0, 0x5FFB00
    .word all_free, 0, 0, 0x7EF400
    .word allocate, 1, 0x5FFB00, 0x200100
    .word free_block, 0x800000, 0, -1
    .word free_block, 0xA0200100, 0, 0
    .word rows_in_handler, handler_rows, 0, 0
    .word 0
handler_rows:
    .word memory_size, 0, 0, 0x800000
    .word all_free, 0, 0, 0x7EF400
    .word 0
param:
    .word 0, 0, peek, 512, 20
status:
    .word 0, 0, 0, 0
status_16:
    .word 0, 0, 0, 0, 0, 0, 0, 0
