; A pool has a block of free memory, by the least place. 255 variable pools and 255 fixed ones can be live. One that is
; refused takes no id and no memory; one that is deleted makes room for another, whose id is new. This module's block is
; the 0x600 bytes from 0x10000 on, so free memory begins at 0x10600
    .name limits
    .import thvpool 1 1
    .fn create_variable 4
    .fn delete_variable 5
    .endi
    .import thfpool 1 1
    .fn create_fixed 4
    .fn delete_fixed 5
    .endi
    .import sysmem 1 1
    .fn allocate_block 4
    .fn free_block 5
    .fn all_free 8
    .fn block_size 10
    .endi
; calls $a1 255 times with the words at $a0, and answers the last answer
makes_255:
    addu $s3, $ra, $0
    addu $s4, $a0, $0
    addu $s5, $a1, $0
    addiu $s6, $0, 255
make:
    jalr $ra, $s5
    addu $a0, $s4, $0
    addiu $s6, $s6, -1
    bne $s6, $0, make
    nop
    jr $s3
    nop
    .data
rows:
; 256 bytes are free
    .word allocate_block, 0, 0x1EF900, 0x10600
    .word create_variable, of_257, 0, -400
    .word create_fixed, of_257, 0, -400
    .word create_variable, of_256, 0, 1
    .word create_variable, of_16, 0, -400
    .word create_fixed, of_16, 0, -400
    .word block_size, 0x1FFF00, 0, 0x100
    .word delete_variable, 1, 0, 0
    .word create_fixed, of_256, 0, 1
    .word create_variable, of_16, 0, -400
    .word create_fixed, of_16, 0, -400
    .word delete_fixed, 1, 0, 0
    .word all_free, 0, 0, 0x100
    .word free_block, 0x10600, 0, 0
; 255 of each kind are live
    .word makes_255, of_16, create_variable, 256
    .word makes_255, of_16, create_fixed, 256
    .word all_free, 0, 0, 0x1CFC00
    .word create_variable, of_16, 0, -400
    .word create_fixed, of_16, 0, -400
    .word all_free, 0, 0, 0x1CFC00
; the words are looked at before
    .word create_variable, attribute, 0, -401
    .word create_variable, of_0, 0, -427
    .word create_fixed, attribute, 0, -401
    .word create_fixed, of_0, 0, -427
    .word delete_variable, 100, 0, 0
    .word create_variable, of_16, 0, 257
    .word create_variable, of_16, 0, -400
    .word delete_fixed, 256, 0, 0
    .word create_fixed, of_16, 0, 257
    .word create_fixed, of_16, 0, -400
    .word all_free, 0, 0, 0x1CFC00
    .word 0
attribute:
    .word 2, 0, 16, 1
of_0:
    .word 0, 0, 0, 1
of_16:
    .word 0, 0, 16, 1
of_256:
    .word 0, 0, 256, 1
of_257:
    .word 0, 0, 257, 1
