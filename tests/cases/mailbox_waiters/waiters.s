; A message goes to the thread that waits, by priority or by arrival, and is not queued. Its own priority is not
; looked at then, and its byte stands outside RAM here. The waiter of a mailbox that is deleted is woken with -425
    .name waiters
    .import thmsgbx 1 1
    .fn create_box 4
    .fn delete_box 5
    .fn send 6
    .fn send_in_handler 7
    .fn receive 8
    .fn poll_box 9
    .fn refer_box 11
    .fn refer_box_in_handler 12
    .endi
; receives from the mailbox that its argument names
receives:
    addu $s0, $ra, $0
    addu $a1, $a0, $0
    lui $a0, %hi(place)
    jal receive
    addiu $a0, $a0, %lo(place)
    lui $t0, %hi(seen)
    addiu $t0, $t0, %lo(seen)
    jr $s0
    sw $v0, 0($t0)
    .data
rows:
    .word create_box, by_priority, 0, 1
    .word create_box, by_arrival, 0, 2
    .word create, worse, 0, 2
    .word create, better, 0, 3
    .word create, worse, 0, 4
    .word create, better, 0, 5
    .word change, 0, 40, 0
    .word start, 2, 1, 0
    .word start, 3, 1, 0
    .word start, 4, 2, 0
    .word start, 5, 2, 0
    .word refer_box, 1, status, 0
    .word peek, status_8, 0, 2
    .word refer, 2, status, 0
    .word peek, status_36, 0, 5
    .word peek, status_40, 0, 1
    .word send, 1, 0x1FFFFC, 0
    .word peek, place, 0, 0x1FFFFC
    .word refer, 3, status, 0
    .word peek, status_8, 0, 0x10
    .word refer_box, 1, status, 0
    .word peek, status_8, 0, 1
    .word peek, status_12, 0, 0
    .word send, 2, rows, 0
    .word peek, place, 0, rows
    .word refer, 4, status, 0
    .word peek, status_8, 0, 0x10
    .word delete_box, 1, 0, 0
    .word peek, seen, 0, -425
    .word terminate, 5, 0, 0
    .word send, 2, rows, 0
    .word refer_box, 2, status, 0
    .word peek, status_8, 0, 0
    .word peek, status_12, 0, 1
    .word 0
by_priority:
    .word 5, 0
by_arrival:
    .word 0, 0
worse:
    .word 0, 0, receives, 256, 30
better:
    .word 0, 0, receives, 256, 20
place:
    .word 0
seen:
    .word 1
status:
    .word 0, 0
status_8:
    .word 0
status_12:
    .word 0, 0, 0, 0, 0, 0
status_36:
    .word 0
status_40:
    .word 0, 0
