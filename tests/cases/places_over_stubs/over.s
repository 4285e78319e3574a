; Each service that writes at a place that a thread gives, but GetSystemTime, writes over the second word of a live
; stub. That ends the stub; its jump to QueryBlockSize stays as a plain word. A call asks for a place in free memory,
; unless the second word is an instruction that names the kernel's block; where a service cannot write such a one, it is
; one that changes nothing
    .name over
    .import intrman 1 1
    .fn disable_line 7
    .fn turn_off 8
    .fn turn_on 9
    .fn suspend_interrupts 17
    .endi
    .import thsemap 1 1
    .fn create_sema 4
    .fn refer_sema 11
    .endi
    .import thevent 1 1
    .fn create_flag 4
    .fn wait_flag 10
    .fn poll_flag 11
    .fn refer_flag 13
    .endi
    .import thmsgbx 1 1
    .fn create_box 4
    .fn send 6
    .fn receive 8
    .fn poll_box 9
    .fn refer_box 11
    .endi
; the stubs. Behind a table stands room for all words that are written
    .import sysmem 1 1
    .fn under_line 10
    .fn under_state 10
    .fn under_seconds 10
    .fn under_micros 10
    .fn under_wait 10
    .fn under_poll 10
    .fn under_receive 10
    .fn under_poll_box 10
    .fn under_time 10
    .endi
    .import sysmem 1 1
    .fn under_thread 10
    .endi
    .word 0, 0, 0, 0, 0, 0, 0, 0, 0
    .import sysmem 1 1
    .fn under_sema 10
    .endi
    .word 0, 0, 0
    .import sysmem 1 1
    .fn under_flag 10
    .endi
    .word 0, 0
    .import sysmem 1 1
    .fn under_box 10
    .endi
    .word 0, 0
; the second word of the stub at $a0
second_of:
    lw $v0, 4($a0)
    jr $ra
    nop
; services whose place is the second word of a stub
line_over:
    j disable_line
    addiu $a1, $a1, 4
state_over:
    j suspend_interrupts
    addiu $a0, $a0, 4
thread_over:
    j refer
    addiu $a1, $a1, 4
time_over:
    j to_clock
    addiu $a1, $a1, 4
seconds_over:
    lui $a2, %hi(rest)
    addiu $a2, $a2, %lo(rest)
    j to_usec
    addiu $a1, $a1, 4
micros_over:
    addiu $a2, $a1, 4
    lui $a1, %hi(rest)
    j to_usec
    addiu $a1, $a1, %lo(rest)
sema_over:
    j refer_sema
    addiu $a1, $a1, 4
flag_over:
    j refer_flag
    addiu $a1, $a1, 4
box_over:
    j refer_box
    addiu $a1, $a1, 4
; waits for bit 2 of the event flag $a0, and polls for it
wait_over:
    addiu $a3, $a1, 4
    addiu $a1, $0, 4
    j wait_flag
    addiu $a2, $0, 1
poll_over:
    addiu $a3, $a1, 4
    addiu $a1, $0, 4
    j poll_flag
    addiu $a2, $0, 1
poll_box_over:
    j poll_box
    addiu $a0, $a0, 4
receive_over:
    j receive
    addiu $a0, $a0, 4
    .data
rows:
; 33 is addu $0, $0, $0
    .word line_over, 33, under_line, -103 ; over a stub
    .word second_of, under_line, 0, 33
    .word peek, under_line, 0, 0x08001128
    .word under_line, 0x100000, 0, -1
; interrupts are off: 0, which is sll $0, $0, 0
    .word turn_off, 0, 0, 0
    .word state_over, under_state, 0, -102 ; over a stub
    .word second_of, under_state, 0, 0
    .word peek, under_state, 0, 0x08001128
    .word turn_on, 0, 0, 0
    .word under_state, 0x100000, 0, -1
; the attributes, which are sll $0, $0, 0 again
    .word thread_over, 0, under_thread, 0 ; over a stub
    .word second_of, under_thread, 0, 0x02000000
    .word peek, under_thread, 0, 0x08001128
    .word under_thread, 0x100000, 0, -1
; so many microseconds are 0x24040020 ticks: addiu $a0, $0, 32
    .word time_over, 16391112, under_time, 0 ; over a stub
    .word second_of, under_time, 0, 0x24040020
    .word peek, under_time, 0, 0x08001128
    .word under_time, 0x100000, 0, 0x10000
; 0x24040004 seconds: addiu $a0, $0, 4
    .word seconds_over, seconds, under_seconds, 0 ; over a stub
    .word second_of, under_seconds, 0, 0x24040004
    .word peek, under_seconds, 0, 0x08001128
    .word under_seconds, 0x100000, 0, 0x10000
; 0x52021 microseconds: addu $a0, $0, $a1
    .word micros_over, micros, under_micros, 0 ; over a stub
    .word second_of, under_micros, 0, 0x52021
    .word peek, under_micros, 0, 0x08001128
    .word under_micros, 0x100000, 4, 0x10000
; the attribute 0
    .word create_sema, sema, 0, 1
    .word sema_over, 1, under_sema, 0 ; over a stub
    .word second_of, under_sema, 0, 0
    .word peek, under_sema, 0, 0x08001128
    .word under_sema, 0x100000, 0, -1
; the attribute 2, which is srl $0, $0, 0, and the pattern
    .word create_flag, flag, 0, 1
    .word flag_over, 1, under_flag, 0 ; over a stub
    .word second_of, under_flag, 0, 2
    .word peek, under_flag, 0, 0x08001128
    .word under_flag, 0x100000, 0, -1
    .word wait_over, 1, under_wait, 0 ; over a stub
    .word second_of, under_wait, 0, 0x24040004
    .word peek, under_wait, 0, 0x08001128
    .word under_wait, 0x100000, 0, 0x10000
    .word poll_over, 1, under_poll, 0 ; over a stub
    .word second_of, under_poll, 0, 0x24040004
    .word peek, under_poll, 0, 0x08001128
    .word under_poll, 0x100000, 0, 0x10000
; the attribute 4, which is sllv $0, $0, $0, and messages, at whose addresses nothing has to be
    .word create_box, by_priority, 0, 1
    .word box_over, 1, under_box, 0 ; over a stub
    .word second_of, under_box, 0, 4
    .word peek, under_box, 0, 0x08001128
    .word under_box, 0x100000, 0, -1
    .word create_box, by_arrival, 0, 2
    .word send, 2, 0x24040004, 0
    .word send, 2, 0x24040005, 0
    .word poll_box_over, under_poll_box, 2, 0 ; over a stub
    .word second_of, under_poll_box, 0, 0x24040004
    .word peek, under_poll_box, 0, 0x08001128
    .word under_poll_box, 0x100000, 0, 0x10000
    .word receive_over, under_receive, 2, 0 ; over a stub
    .word second_of, under_receive, 0, 0x24040005
    .word peek, under_receive, 0, 0x08001128
    .word under_receive, 0x100000, 0, 0x10000
; no stub stands there any more
    .word line_over, 33, under_line, -103
    .word 0
sema:
    .word 0, 0, 1, 1
flag:
    .word 2, 0, 0x24040004
by_priority:
    .word 4, 0
by_arrival:
    .word 0, 0
seconds:
    .word 0x08CA0000, 0x004F22CA
micros:
    .word 12382802, 0
rest:
    .word 0
