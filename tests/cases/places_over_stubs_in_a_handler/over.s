; Each service that writes at a place that a handler gives, but GetSystemTime, writes over the second word of a live
; stub. That ends the stub; its jump to QueryBlockSize stays as a plain word. A call asks for a place in free memory,
; unless the second word is an instruction that names the kernel's block; where a service cannot write such a one, it is
; one that changes nothing
    .name over
    .import intrman 1 1
    .fn disable_line 7
    .fn turn_off 8
    .fn suspend_interrupts 17
    .endi
    .import thsemap 1 1
    .fn create_sema 4
    .fn refer_sema_in_handler 12
    .endi
    .import thevent 1 1
    .fn create_flag 4
    .fn refer_flag_in_handler 14
    .endi
    .import thmsgbx 1 1
    .fn create_box 4
    .fn refer_box_in_handler 12
    .endi
; the stubs. Behind a table stands room for all words that are written
    .import sysmem 1 1
    .fn under_line 10
    .fn under_state 10
    .fn under_seconds 10
    .fn under_micros 10
    .fn under_time 10
    .endi
    .import sysmem 1 1
    .fn under_thread 10
    .endi
    .word 0, 0, 0, 0, 0, 0, 0, 0, 0
    .import sysmem 1 1
    .fn under_sema 10
    .endi
    .word 0, 0, 0
    .import sysmem 1 1
    .fn under_flag 10
    .endi
    .word 0, 0
    .import sysmem 1 1
    .fn under_box 10
    .endi
    .word 0, 0
; the second word of the stub at $a0
second_of:
    lw $v0, 4($a0)
    jr $ra
    nop
; services whose place is the second word of a stub
line_over:
    j disable_line
    addiu $a1, $a1, 4
state_over:
    j suspend_interrupts
    addiu $a0, $a0, 4
thread_over:
    j refer_in_handler
    addiu $a1, $a1, 4
time_over:
    j to_clock
    addiu $a1, $a1, 4
seconds_over:
    lui $a2, %hi(rest)
    addiu $a2, $a2, %lo(rest)
    j to_usec
    addiu $a1, $a1, 4
micros_over:
    addiu $a2, $a1, 4
    lui $a1, %hi(rest)
    j to_usec
    addiu $a1, $a1, %lo(rest)
sema_over:
    j refer_sema_in_handler
    addiu $a1, $a1, 4
flag_over:
    j refer_flag_in_handler
    addiu $a1, $a1, 4
box_over:
    j refer_box_in_handler
    addiu $a1, $a1, 4
    .data
rows:
    .word create_sema, sema, 0, 1
    .word create_flag, flag, 0, 1
    .word create_box, by_priority, 0, 1
    .word rows_in_handler, handler_rows, 0, 0
    .word 0
handler_rows:
; 33 is addu $0, $0, $0
    .word line_over, 33, under_line, -103 ; over a stub
    .word second_of, under_line, 0, 33
    .word peek, under_line, 0, 0x08001128
    .word under_line, 0x100000, 0, -1
; interrupts are off: 0, which is sll $0, $0, 0
    .word turn_off, 0, 0, 0
    .word state_over, under_state, 0, -102 ; over a stub
    .word second_of, under_state, 0, 0
    .word peek, under_state, 0, 0x08001128
    .word under_state, 0x100000, 0, -1
; the attributes of the first thread, which are sll $0, $0, 0 again
    .word thread_over, 1, under_thread, 0 ; over a stub
    .word second_of, under_thread, 0, 0x02000000
    .word peek, under_thread, 0, 0x08001128
    .word under_thread, 0x100000, 0, -1
; so many microseconds are 0x24040020 ticks: addiu $a0, $0, 32
    .word time_over, 16391112, under_time, 0 ; over a stub
    .word second_of, under_time, 0, 0x24040020
    .word peek, under_time, 0, 0x08001128
    .word under_time, 0x100000, 0, 0x10000
; 0x24040004 seconds: addiu $a0, $0, 4
    .word seconds_over, seconds, under_seconds, 0 ; over a stub
    .word second_of, under_seconds, 0, 0x24040004
    .word peek, under_seconds, 0, 0x08001128
    .word under_seconds, 0x100000, 0, 0x10000
; 0x52021 microseconds: addu $a0, $0, $a1
    .word micros_over, micros, under_micros, 0 ; over a stub
    .word second_of, under_micros, 0, 0x52021
    .word peek, under_micros, 0, 0x08001128
    .word under_micros, 0x100000, 4, 0x10000
; the attributes of the objects: 0; 2, which is srl $0, $0, 0; 4, which is sllv $0, $0, $0
    .word sema_over, 1, under_sema, 0 ; over a stub
    .word second_of, under_sema, 0, 0
    .word peek, under_sema, 0, 0x08001128
    .word under_sema, 0x100000, 0, -1
    .word flag_over, 1, under_flag, 0 ; over a stub
    .word second_of, under_flag, 0, 2
    .word peek, under_flag, 0, 0x08001128
    .word under_flag, 0x100000, 0, -1
    .word box_over, 1, under_box, 0 ; over a stub
    .word second_of, under_box, 0, 4
    .word peek, under_box, 0, 0x08001128
    .word under_box, 0x100000, 0, -1
    .word 0
sema:
    .word 0, 0, 1, 1
flag:
    .word 2, 0, 0
by_priority:
    .word 4, 0
seconds:
    .word 0x08CA0000, 0x004F22CA
micros:
    .word 12382802, 0
rest:
    .word 0
