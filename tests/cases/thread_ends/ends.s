; How threads end: 2 returns, 3 exits, 4 exits and is deleted, 5 is ended while it is ready, 6 while it
; sleeps, 7 while it is suspended, 8 while it sleeps and is suspended
    .name ends
returns:
    jr $ra
    nop
exits:
    j exit
    nop
exits_deleted:
    j exit_delete
    nop
sleeps:
    addu $s0, $ra, $0
    jal sleep
    nop
    jr $s0
    nop
    .data
rows:
    .word create, returning, 0, 2
    .word create, exiting, 0, 3
    .word create, deleting, 0, 4
    .word create, late, 0, 5
    .word create, sleeping, 0, 6
    .word create, late, 0, 7
    .word create, sleeping, 0, 8
    .word start, 2, 0, 0
    .word start, 3, 0, 0
    .word start, 4, 0, 0
    .word refer, 4, status, -407
    .word delete, 4, 0, -407
    .word terminate, 2, 0, -413
    .word terminate, 3, 0, -413
    .word start, 5, 0, 0
    .word terminate, 5, 0, 0
    .word start, 6, 0, 0
    .word refer, 6, status, 0
    .word peek, status_8, 0, 4
    .word peek, status_36, 0, 1
    .word terminate, 6, 0, 0
    .word wakeup, 6, 0, -413
    .word start, 7, 0, 0
    .word suspend, 7, 0, 0
    .word refer, 7, status, 0
    .word peek, status_8, 0, 8
    .word terminate, 7, 0, 0
    .word resume, 7, 0, -415
    .word start, 8, 0, 0
    .word suspend, 8, 0, 0
    .word refer, 8, status, 0
    .word peek, status_8, 0, 0xC
    .word terminate, 8, 0, 0
    .word refer, 8, status, 0
    .word peek, status_8, 0, 0x10
    .word start, 5, 0, 0
    .word delete, 2, 0, 0
    .word create, returning, 0, 9
    .word 0
returning:
    .word 0, 0, returns, 256, 5
exiting:
    .word 0, 0, exits, 256, 5
deleting:
    .word 0, 0, exits_deleted, 256, 5
late:
    .word 0, 0, returns, 256, 20
sleeping:
    .word 0, 0, sleeps, 256, 5
status:
    .word 0, 0
status_8:
    .word 0, 0, 0, 0, 0, 0, 0
status_36:
    .word 0, 0, 0
