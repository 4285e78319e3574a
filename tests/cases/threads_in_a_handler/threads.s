; What the forms of thbase for handlers answer. No thread calls in a handler, so the thread that it interrupted is one
; like the others; 0 names none
    .name handled
sleeps:
    addu $s0, $ra, $0
    jal sleep
    nop
    lui $t0, %hi(seen)
    addiu $t0, $t0, %lo(seen)
    jr $s0
    sw $v0, 0($t0)
returns:
    jr $ra
    nop
; disables dispatch and goes on for ever
keeps:
    jal disable
    nop
kept:
    j kept
    nop
; an alarm after the time at $a0, whose handler calls the rows at $a1
rows_later:
    addu $a2, $a1, $0
    lui $a1, %hi(alarm_handler)
    j set_alarm
    addiu $a1, $a1, %lo(alarm_handler)
    .data
rows:
    .word create, sleeping, 0, 2
    .word create, late, 0, 3
    .word create, late, 0, 4
    .word create, keeping, 0, 5
    .word start, 2, 0, 0
    .word start, 3, 0, 0
    .word rows_in_handler, handler_rows, 0, 0
    .word peek, seen, 0, -418
    .word refer, 0, status, 0
    .word peek, status_8, 0, 1
    .word peek, status_32, 0, 9
; the thread 1 is interrupted while dispatch is disabled
    .word start, 2, 0, 0
    .word start, 3, 0, 0
    .word disable, 0, 0, 0
    .word rows_in_handler, disabled_rows, 0, 0
    .word peek, seen, 0, -418
    .word enable, 0, 0, 0
    .word peek, seen, 0, 0
; the thread 5 is ended while it has dispatch disabled, by which dispatch is enabled
    .word rows_later, later, ending_rows, 0
    .word start, 5, 0, 0
    .word peek, handler_answer, 0, 0
    .word delay, 0, 0, 0
    .word terminate, 5, 0, -413
    .word 0
; 2 sleeps, 3 is ready, 4 is dormant, 1 was interrupted
handler_rows:
    .word change_in_handler, 0, 0, -403
    .word change_in_handler, 0, 127, -403
    .word change_in_handler, 0, 20, -406
    .word change_in_handler, 9, 20, -407
    .word change_in_handler, 4, 20, -413
    .word change_in_handler, 3, 21, 0
    .word change_in_handler, 1, 9, 0
    .word rotate_in_handler, 127, 0, -403
    .word rotate_in_handler, 0, 0, -403
    .word rotate_in_handler, 21, 0, 0
    .word rotate_in_handler, 126, 0, 0
    .word refer_in_handler, 0, status, -406
    .word refer_in_handler, 9, status, -407
    .word refer_in_handler, 3, status, 0
    .word peek, status_8, 0, 2
    .word peek, status_32, 0, 21
    .word refer_in_handler, 1, status, 0
    .word peek, status_8, 0, 1
    .word peek, status_32, 0, 9
    .word wakeup_in_handler, 0, 0, -406
    .word wakeup_in_handler, 9, 0, -407
    .word wakeup_in_handler, 4, 0, -413
    .word wakeup_in_handler, 1, 0, 0
    .word wakeup_in_handler, 1, 0, 0
    .word cancel_in_handler, 0, 0, -406
    .word cancel_in_handler, 9, 0, -407
    .word cancel_in_handler, 4, 0, -413
    .word cancel_in_handler, 1, 0, 2
    .word cancel_in_handler, 1, 0, 0
    .word release_in_handler, 0, 0, -406
    .word release_in_handler, 9, 0, -407
    .word release_in_handler, 4, 0, -416
    .word release_in_handler, 3, 0, -416
    .word release_in_handler, 1, 0, -416
    .word release_in_handler, 2, 0, 0
    .word release_in_handler, 2, 0, -416
    .word suspend_in_handler, 0, 0, -406
    .word suspend_in_handler, 9, 0, -407
    .word suspend_in_handler, 4, 0, -413
    .word suspend_in_handler, 3, 0, 0
    .word suspend_in_handler, 1, 0, 0
    .word refer_in_handler, 1, status, 0
    .word peek, status_8, 0, 8
    .word resume_in_handler, 0, 0, -406
    .word resume_in_handler, 9, 0, -407
    .word resume_in_handler, 4, 0, -415
    .word resume_in_handler, 2, 0, -415
    .word resume_in_handler, 3, 0, 0
    .word resume_in_handler, 1, 0, 0
    .word resume_in_handler, 1, 0, -415
    .word terminate_in_handler, 0, 0, -406
    .word terminate_in_handler, 1, 0, -406
    .word terminate_in_handler, 9, 0, -407
    .word terminate_in_handler, 4, 0, -413
    .word terminate_in_handler, 3, 0, 0
    .word terminate_in_handler, 3, 0, -413
    .word 0
disabled_rows:
    .word suspend_in_handler, 1, 0, -417
    .word suspend_in_handler, 3, 0, 0
    .word suspend_in_handler, 2, 0, 0
    .word wakeup_in_handler, 2, 0, 0
    .word resume_in_handler, 2, 0, 0
    .word rotate_in_handler, 9, 0, 0
    .word refer_in_handler, 1, status, 0
    .word peek, status_8, 0, 1
    .word 0
ending_rows:
    .word terminate_in_handler, 5, 0, 0
    .word terminate_in_handler, 5, 0, -413
    .word 0
sleeping:
    .word 0, 0, sleeps, 256, 5
late:
    .word 0, 0, returns, 256, 20
keeping:
    .word 0, 0, keeps, 256, 4
later:
    .word 300, 0
seen:
    .word 1
status:
    .word 0, 0
status_8:
    .word 0, 0, 0, 0, 0, 0
status_32:
    .word 0, 0, 0, 0
