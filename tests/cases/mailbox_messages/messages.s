; What the services of mailboxes refuse, messages by arrival and by priority, and the status of a mailbox
    .name messages
    .import thmsgbx 1 1
    .fn create_box 4
    .fn delete_box 5
    .fn send 6
    .fn send_in_handler 7
    .fn receive 8
    .fn poll_box 9
    .fn refer_box 11
    .fn refer_box_in_handler 12
    .endi
    .import intrman 1 1
    .fn turn_off 8
    .fn turn_on 9
    .endi
    .data
rows:
    .word create_box, attribute, 0, -401
    .word create_box, attribute_8, 0, -401
    .word create_box, by_arrival, 0, 1
    .word create_box, by_priority, 0, 2
    .word poll_box, place, 1, -424
    .word send, 1, m5, 0
    .word send, 1, m1, 0
    .word refer_box, 1, status, 0
    .word peek, status, 0, 0
    .word peek, status_4, 0, 3
    .word peek, status_8, 0, 0
    .word peek, status_12, 0, 2
    .word peek, status_16, 0, m5
    .word poll_box, place, 1, 0
    .word peek, place, 0, m5
    .word receive, place, 1, 0
    .word peek, place, 0, m1
    .word poll_box, place, 1, -424
    .word refer_box, 1, status, 0
    .word peek, status_16, 0, 0
    .word send, 2, m5, 0
    .word send, 2, m3, 0
    .word send, 2, n3, 0
    .word poll_box, place, 2, 0
    .word peek, place, 0, m3
    .word poll_box, place, 2, 0
    .word peek, place, 0, n3
    .word poll_box, place, 2, 0
    .word peek, place, 0, m5
    .word send, 3, m1, -410
    .word receive, place, 3, -410
    .word poll_box, place, 3, -410
    .word delete_box, 3, 0, -410
    .word refer_box, 3, status, -410
    .word send_in_handler, 1, m1, -100
    .word refer_box_in_handler, 1, status, -100
    .word refer_box_in_handler, 1, 2, -100
    .word disable, 0, 0, 0
    .word receive, place, 1, -417
    .word poll_box, place, 1, -424
    .word receive, place, 3, -417
    .word enable, 0, 0, 0
    .word turn_off, 0, 0, 0
    .word receive, place, 1, -417
    .word receive, place, 3, -417
    .word poll_box, place, 1, -424
    .word turn_on, 0, 0, 0
    .word send, 2, m5, 0
    .word delete_box, 2, 0, 0
    .word delete_box, 2, 0, -410
    .word create_box, by_arrival, 0, 3
    .word 0
attribute:
    .word 2, 0
attribute_8:
    .word 8, 0
by_arrival:
    .word 0, 3
by_priority:
    .word 4, 0
m1:
    .word 0, 0
m5:
    .word 0, 5
m3:
    .word 0, 3
n3:
    .word 0, 0x103
place:
    .word 0
status:
    .word 0
status_4:
    .word 0
status_8:
    .word 0
status_12:
    .word 0
status_16:
    .word 0
