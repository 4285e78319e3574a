; 4,096 messages are queued, in two mailboxes, and one more is refused until one is received; where there is no room the
; priority of a message is not looked at, which here is outside RAM
    .name full
    .import thmsgbx 1 1
    .fn create_box 4
    .fn delete_box 5
    .fn send 6
    .fn send_in_handler 7
    .fn receive 8
    .fn poll_box 9
    .fn refer_box 11
    .fn refer_box_in_handler 12
    .endi
; sends 2,048 messages to a mailbox, and answers what the last one was answered
fills:
    addu $s3, $ra, $0
    addu $s4, $a0, $0
    addiu $s5, $0, 2048
fill:
    addu $a0, $s4, $0
    lui $a1, %hi(rows)
    jal send
    addiu $a1, $a1, %lo(rows)
    addiu $s5, $s5, -1
    bne $s5, $0, fill
    nop
    jr $s3
    nop
    .data
rows:
    .word create_box, by_arrival, 0, 1
    .word create_box, by_priority, 0, 2
    .word fills, 1, 0, 0
    .word fills, 2, 0, 0
    .word send, 1, rows, -400
    .word send, 2, 0xFFFFFFF0, -400
    .word rows_in_handler, handler_rows, 0, 0
    .word poll_box, place, 1, 0
    .word send, 2, rows, 0
    .word send, 1, rows, -400
    .word delete_box, 1, 0, 0
    .word send, 2, rows, 0
    .word 0
handler_rows:
    .word send_in_handler, 1, rows, -400
    .word send_in_handler, 2, 0xFFFFFFF0, -400
    .word send_in_handler, 3, rows, -410
    .word 0
by_arrival:
    .word 0, 0
by_priority:
    .word 4, 0
place:
    .word 0
