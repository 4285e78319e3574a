; What the services of semaphores refuse, counts at 0 and at the most, and the status of a semaphore
    .name counts
    .import thsemap 1 1
    .fn create_sema 4
    .fn delete_sema 5
    .fn signal 6
    .fn signal_in_handler 7
    .fn wait 8
    .fn poll 9
    .fn refer_sema 11
    .fn refer_sema_in_handler 12
    .endi
    .import intrman 1 1
    .fn turn_off 8
    .fn turn_on 9
    .endi
    .data
rows:
    .word create_sema, attribute, 0, -401
    .word create_sema, attribute_and_count, 0, -401
    .word create_sema, too_many, 0, -420
    .word create_sema, full, 0, 1
    .word create_sema, empty, 0, 2
    .word signal, 1, 0, -420
    .word poll, 1, 0, 0
    .word poll, 1, 0, -419
    .word signal, 1, 0, 0
    .word wait, 1, 0, 0
    .word signal, 2, 0, 0
    .word signal, 2, 0, 0
    .word signal, 2, 0, -420
    .word refer_sema, 2, status, 0
    .word peek, status, 0, 1
    .word peek, status_4, 0, 7
    .word peek, status_8, 0, 0
    .word peek, status_12, 0, 2
    .word peek, status_16, 0, 2
    .word peek, status_20, 0, 0
    .word signal, 3, 0, -408
    .word signal, 0, 0, -408
    .word signal, -1, 0, -408
    .word wait, 3, 0, -408
    .word poll, 3, 0, -408
    .word delete_sema, 3, 0, -408
    .word refer_sema, 3, status, -408
    .word delete_sema, 0, 0, -408
    .word signal_in_handler, 1, 0, -100
    .word refer_sema_in_handler, 1, status, -100
    .word refer_sema_in_handler, 1, 2, -100
    .word disable, 0, 0, 0
    .word wait, 2, 0, -417
    .word wait, 3, 0, -417
    .word poll, 2, 0, 0
    .word enable, 0, 0, 0
    .word turn_off, 0, 0, 0
    .word wait, 2, 0, -417
    .word wait, 3, 0, -417
    .word poll, 2, 0, 0
    .word signal, 2, 0, 0
    .word turn_on, 0, 0, 0
    .word delete_sema, 1, 0, 0
    .word delete_sema, 1, 0, -408
    .word create_sema, full, 0, 3
    .word 0
attribute:
    .word 2, 0, 0, 1
attribute_and_count:
    .word 0x100, 0, 2, 1
too_many:
    .word 0, 0, 2, 1
full:
    .word 0, 0, 1, 1
empty:
    .word 1, 7, 0, 2
status:
    .word 0
status_4:
    .word 0
status_8:
    .word 0
status_12:
    .word 0
status_16:
    .word 0
status_20:
    .word 0
