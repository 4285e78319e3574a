; Wakeups: those of a thread that does not sleep are counted, and taken by its next sleeps; a released wait
; ends with -418, and a suspended sleeper that is woken stays suspended
    .name wakeups
; sleeps three times, and stores what the last one answers
sleeps:
    addu $s0, $ra, $0
    jal sleep
    nop
    jal sleep
    nop
    jal sleep
    nop
    lui $t0, %hi(seen)
    addiu $t0, $t0, %lo(seen)
    jr $s0
    sw $v0, 0($t0)
    .data
rows:
    .word create, sleeping, 0, 2
    .word start, 2, 0, 0
    .word wakeup, 2, 0, 0
    .word wakeup, 2, 0, 0
    .word release, 2, 0, 0
    .word peek, seen, 0, -418
    .word start, 2, 0, 0
    .word suspend, 2, 0, 0
    .word wakeup, 2, 0, 0
    .word wakeup, 2, 0, 0
    .word wakeup, 2, 0, 0
    .word wakeup, 2, 0, 0
    .word refer, 2, status, 0
    .word peek, status_8, 0, 8
    .word peek, status_44, 0, 3
    .word cancel, 2, 0, 3
    .word cancel, 2, 0, 0
    .word wakeup, 2, 0, 0
    .word wakeup, 2, 0, 0
    .word resume, 2, 0, 0
    .word peek, seen, 0, 0
    .word terminate, 2, 0, -413
    .word 0
sleeping:
    .word 0, 0, sleeps, 256, 5
seen:
    .word 0
status:
    .word 0, 0
status_8:
    .word 0, 0, 0, 0, 0, 0, 0, 0, 0
status_44:
    .word 0
