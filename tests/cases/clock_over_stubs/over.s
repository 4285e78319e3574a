; GetSystemTime writes over the second word of a live stub, in a thread and in a handler. That ends the stub; its jump
; to QueryBlockSize stays as a plain word. Behind it stands a tick, which is an instruction that changes nothing: 43 is
; sltu $0, $0, $0, and 160 add $0, $0, $0
    .name over
    .import sysmem 1 1
    .fn under_time 10
    .endi
    .import sysmem 1 1
    .fn under_time_of_handler 10
    .endi
; the second word of the stub at $a0
second_of:
    lw $v0, 4($a0)
    jr $ra
    nop
; the time, at the second word of the stub at $a0
time_over:
    j get_time
    addiu $a0, $a0, 4
    .data
rows:
    .word peek, under_time, 0, 0x08001128
    .word second_of, under_time, 0, 0x2400000A
    .word time_over, under_time, 0, 0 ; over a stub
    .word second_of, under_time, 0, 43
    .word peek, under_time, 0, 0x08001128
    .word under_time, 0x100000, 0, -1
    .word rows_in_handler, handler_rows, 0, 0
    .word 0
handler_rows:
    .word peek, under_time_of_handler, 0, 0x08001128
    .word second_of, under_time_of_handler, 0, 0x2400000A
    .word time_over, under_time_of_handler, 0, 0 ; over a stub
    .word second_of, under_time_of_handler, 0, 160
    .word peek, under_time_of_handler, 0, 0x08001128
    .word under_time_of_handler, 0x100000, 0, -1
    .word 0
