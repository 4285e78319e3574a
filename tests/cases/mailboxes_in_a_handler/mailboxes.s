; What the forms of thmsgbx for handlers answer, and that the numbers for threads answer -100. A thread that a handler
; wakes runs when the handler has ended
    .name handled
    .import thmsgbx 1 1
    .fn create_box 4
    .fn delete_box 5
    .fn send 6
    .fn send_in_handler 7
    .fn receive 8
    .fn poll_box 9
    .fn refer_box 11
    .fn refer_box_in_handler 12
    .endi
; receives from the mailbox that its argument names, and stores what that answers
receives:
    addu $s0, $ra, $0
    addu $a1, $a0, $0
    lui $a0, %hi(received)
    jal receive
    addiu $a0, $a0, %lo(received)
    lui $t0, %hi(seen)
    addiu $t0, $t0, %lo(seen)
    jr $s0
    sw $v0, 0($t0)
    .data
rows:
    .word create_box, by_priority, 0, 1
    .word create, receiving, 0, 2
    .word start, 2, 1, 0
    .word rows_in_handler, handler_rows, 0, 0
    .word peek, seen, 0, 0
    .word poll_box, place, 1, 0
    .word peek, place, 0, m1
    .word poll_box, place, 1, 0
    .word peek, place, 0, m5
    .word poll_box, place, 1, -424
    .word delete_box, 1, 0, 0
    .word rows_in_handler, deleted_rows, 0, 0
    .word 0
handler_rows:
    .word create_box, by_priority, 0, -100
    .word create_box, 2, 0, -100
    .word delete_box, 1, 0, -100
    .word send, 1, m1, -100
    .word receive, place, 1, -100
    .word receive, 2, 1, -100
    .word poll_box, place, 1, -100
    .word poll_box, 2, 1, -100
    .word refer_box, 1, status, -100
    .word refer_box, 1, 2, -100
    .word refer_box_in_handler, 1, status, 0
    .word peek, status_8, 0, 1
    .word peek, status_12, 0, 0
    .word peek, status_16, 0, 0
    .word send_in_handler, 1, m3, 0
    .word peek, received, 0, m3
    .word peek, seen, 0, 1
    .word send_in_handler, 1, m5, 0
    .word send_in_handler, 1, m1, 0
    .word refer_box_in_handler, 1, status, 0
    .word peek, status_8, 0, 0
    .word peek, status_12, 0, 2
    .word peek, status_16, 0, m1
    .word send_in_handler, 2, m1, -410
    .word send_in_handler, 0, m1, -410
    .word refer_box_in_handler, 2, status, -410
    .word 0
deleted_rows:
    .word send_in_handler, 1, m1, -410
    .word refer_box_in_handler, 1, status, -410
    .word 0
by_priority:
    .word 4, 0
receiving:
    .word 0, 0, receives, 256, 5
m1:
    .word 0, 1
m3:
    .word 0, 3
m5:
    .word 0, 5
place:
    .word 0
received:
    .word 0
seen:
    .word 1
status:
    .word 0, 0
status_8:
    .word 0
status_12:
    .word 0
status_16:
    .word 0
