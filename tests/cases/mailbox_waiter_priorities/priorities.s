; Threads wait for a message of a mailbox, by priority or by arrival, and the priority of one of them changes. The next
; message goes to the first of the best priority, or to the one that came first
    .name priorities
    .import thmsgbx 1 1
    .fn create_box 4
    .fn send 6
    .fn receive 8
    .endi
; receives from the mailbox that its argument names
receives:
    addu $s0, $ra, $0
    addu $a1, $a0, $0
    lui $a0, %hi(place)
    jal receive
    addiu $a0, $a0, %lo(place)
    jr $s0
    nop
    .data
rows:
    .word create_box, by_priority, 0, 1
    .word create_box, by_arrival, 0, 2
    .word create, worse, 0, 2
    .word create, better, 0, 3
    .word create, better, 0, 4
    .word create, better, 0, 5
    .word create, better, 0, 6
    .word change, 0, 40, 0
    .word start, 2, 1, 0
    .word start, 3, 1, 0
    .word start, 4, 1, 0
    .word start, 5, 2, 0
    .word start, 6, 2, 0
    .word change, 2, 10, 0
    .word change, 3, 20, 0
    .word change, 5, 35, 0
    .word refer, 2, status, 0
    .word peek, status_32, 0, 10
    .word send, 1, 0x1000, 0
    .word peek, place, 0, 0x1000
    .word refer, 2, status, 0
    .word peek, status_8, 0, 0x10
    .word send, 1, 0x1004, 0
    .word refer, 4, status, 0
    .word peek, status_8, 0, 0x10
    .word refer, 3, status, 0
    .word peek, status_8, 0, 4
    .word send, 1, 0x1008, 0
    .word refer, 3, status, 0
    .word peek, status_8, 0, 0x10
    .word send, 2, 0x100C, 0
    .word peek, place, 0, 0x100C
    .word refer, 5, status, 0
    .word peek, status_8, 0, 0x10
    .word refer, 6, status, 0
    .word peek, status_8, 0, 4
    .word 0
by_priority:
    .word 1, 0
by_arrival:
    .word 0, 0
worse:
    .word 0, 0, receives, 256, 30
better:
    .word 0, 0, receives, 256, 20
place:
    .word 0
status:
    .word 0, 0
status_8:
    .word 0, 0, 0, 0, 0, 0
status_32:
    .word 0, 0, 0, 0
