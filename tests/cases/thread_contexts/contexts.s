; A number of thbase for threads gives a handler -100, and one for handlers a thread, before all else: also where a
; place is bad
    .name contexts
    .data
rows:
    .word terminate_in_handler, 2, 0, -100
    .word change_in_handler, 1, 9, -100
    .word rotate_in_handler, 8, 0, -100
    .word release_in_handler, 2, 0, -100
    .word refer_in_handler, 1, status, -100
    .word refer_in_handler, 1, 2, -100
    .word wakeup_in_handler, 2, 0, -100
    .word cancel_in_handler, 1, 0, -100
    .word suspend_in_handler, 2, 0, -100
    .word resume_in_handler, 2, 0, -100
    .word set_alarm_in_handler, status, peek, -100
    .word set_alarm_in_handler, 2, peek, -100
    .word cancel_alarm_in_handler, peek, 0, -100
    .word rows_in_handler, handler_rows, 0, 0
    .word own_id, 0, 0, 1
    .word refer, 0, status, 0
    .word peek, status_8, 0, 1
    .word 0
handler_rows:
    .word create, thread, 0, -100
    .word create, 2, 0, -100
    .word delete, 2, 0, -100
    .word start, 2, 0, -100
    .word exit, 0, 0, -100
    .word exit_delete, 0, 0, -100
    .word terminate, 2, 0, -100
    .word disable, 0, 0, -100
    .word enable, 0, 0, -100
    .word change, 1, 9, -100
    .word change, 1, 0, -100
    .word rotate, 8, 0, -100
    .word rotate, 127, 0, -100
    .word release, 2, 0, -100
    .word own_id, 0, 0, -100
    .word refer, 1, status, -100
    .word refer, 1, 2, -100
    .word sleep, 0, 0, -100
    .word wakeup, 2, 0, -100
    .word cancel, 1, 0, -100
    .word suspend, 2, 0, -100
    .word resume, 2, 0, -100
    .word delay, 1, 0, -100
    .word set_alarm, status, peek, -100
    .word set_alarm, 2, peek, -100
    .word cancel_alarm, peek, 0, -100
    .word 0
thread:
    .word 0, 0, peek, 256, 20
status:
    .word 0, 0
status_8:
    .word 0, 0, 0, 0, 0, 0, 0, 0, 0, 0
