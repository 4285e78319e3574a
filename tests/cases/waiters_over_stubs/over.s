; The pattern of an event flag and the address of a message are written over the second word of a live stub, which a
; thread gave as its place when it began to wait. That ends the stub; its jump to QueryBlockSize stays as a plain word.
; A call asks for a place in free memory, but that word is addiu $a0, $0, 4, or 5, a place in the kernel's block
    .name over
    .import thevent 1 1
    .fn create_flag 4
    .fn set 6
    .fn set_in_handler 7
    .fn clear 8
    .fn wait_flag 10
    .endi
    .import thmsgbx 1 1
    .fn create_box 4
    .fn send 6
    .fn send_in_handler 7
    .fn receive 8
    .endi
; the stubs
    .import sysmem 1 1
    .fn under_pattern 10
    .fn under_message 10
    .fn under_pattern_of_handler 10
    .fn under_message_of_handler 10
    .endi
; the second word of the stub at $a0
second_of:
    lw $v0, 4($a0)
    jr $ra
    nop
; wait for bit 2 of the event flag, and for a message; the place is the second word of the stub at $a0
waits_over:
    addu $s0, $ra, $0
    addiu $a3, $a0, 4
    addiu $a0, $0, 1
    addiu $a1, $0, 4
    jal wait_flag
    addiu $a2, $0, 1
    jr $s0
    nop
receives_over:
    addu $s0, $ra, $0
    addiu $a1, $0, 1
    jal receive
    addiu $a0, $a0, 4
    jr $s0
    nop
    .data
rows:
    .word create_flag, many, 0, 1
    .word create_box, by_arrival, 0, 1
    .word create, waits, 0, 2
    .word create, receives, 0, 3
    .word start, 2, under_pattern, 0
    .word start, 3, under_message, 0
    .word set, 1, 0x24040004, 0 ; over a stub
    .word second_of, under_pattern, 0, 0x24040004
    .word peek, under_pattern, 0, 0x08001128
    .word under_pattern, 0x100000, 0, 0x10000
    .word send, 1, 0x24040005, 0 ; over a stub
    .word second_of, under_message, 0, 0x24040005
    .word peek, under_message, 0, 0x08001128
    .word under_message, 0x100000, 0, 0x10000
    .word clear, 1, 0, 0
    .word start, 2, under_pattern_of_handler, 0
    .word start, 3, under_message_of_handler, 0
    .word rows_in_handler, handler_rows, 0, 0
    .word 0
handler_rows:
    .word set_in_handler, 1, 0x24040004, 0 ; over a stub
    .word second_of, under_pattern_of_handler, 0, 0x24040004
    .word peek, under_pattern_of_handler, 0, 0x08001128
    .word under_pattern_of_handler, 0x100000, 0, 0x10000
    .word send_in_handler, 1, 0x24040005, 0 ; over a stub
    .word second_of, under_message_of_handler, 0, 0x24040005
    .word peek, under_message_of_handler, 0, 0x08001128
    .word under_message_of_handler, 0x100000, 0, 0x10000
    .word 0
many:
    .word 2, 0, 0
by_arrival:
    .word 0, 0
waits:
    .word 0, 0, waits_over, 256, 5
receives:
    .word 0, 0, receives_over, 256, 5
