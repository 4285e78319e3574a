; The status of a pool is written from the second word of a live stub on. That ends the stub; its jump to QueryBlockSize
; stays as a plain word, and behind it the attribute 0, which is sll $0, $0, 0
    .name over
    .import thvpool 1 1
    .fn create_variable 4
    .fn refer_variable 11
    .fn refer_variable_in_handler 12
    .endi
    .import thfpool 1 1
    .fn create_fixed 4
    .fn refer_fixed 11
    .fn refer_fixed_in_handler 12
    .endi
; the stubs. Behind a table stands room for all words that are written
    .import sysmem 1 1
    .fn under_variable 10
    .endi
    .word 0, 0, 0
    .import sysmem 1 1
    .fn under_fixed 10
    .endi
    .word 0, 0, 0
    .import sysmem 1 1
    .fn under_variable_in_handler 10
    .endi
    .word 0, 0, 0
    .import sysmem 1 1
    .fn under_fixed_in_handler 10
    .endi
    .word 0, 0, 0
; the second word of the stub at $a0
second_of:
    lw $v0, 4($a0)
    jr $ra
    nop
; services whose place is the second word of a stub
variable_over:
    j refer_variable
    addiu $a1, $a1, 4
fixed_over:
    j refer_fixed
    addiu $a1, $a1, 4
variable_in_handler_over:
    j refer_variable_in_handler
    addiu $a1, $a1, 4
fixed_in_handler_over:
    j refer_fixed_in_handler
    addiu $a1, $a1, 4
    .data
rows:
    .word create_variable, words, 0, 1
    .word create_fixed, words, 0, 1
    .word variable_over, 1, under_variable, 0 ; over a stub
    .word second_of, under_variable, 0, 0
    .word peek, under_variable, 0, 0x08001128
    .word under_variable, 0x100000, 0, -1
    .word fixed_over, 1, under_fixed, 0 ; over a stub
    .word second_of, under_fixed, 0, 0
    .word peek, under_fixed, 0, 0x08001128
    .word under_fixed, 0x100000, 0, -1
    .word rows_in_handler, handler_rows, 0, 0
    .word 0
handler_rows:
    .word variable_in_handler_over, 1, under_variable_in_handler, 0 ; over a stub
    .word second_of, under_variable_in_handler, 0, 0
    .word peek, under_variable_in_handler, 0, 0x08001128
    .word under_variable_in_handler, 0x100000, 0, -1
    .word fixed_in_handler_over, 1, under_fixed_in_handler, 0 ; over a stub
    .word second_of, under_fixed_in_handler, 0, 0
    .word peek, under_fixed_in_handler, 0, 0x08001128
    .word under_fixed_in_handler, 0x100000, 0, -1
    .word 0
words:
    .word 0, 0, 64, 1
