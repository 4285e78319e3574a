; What the services of alarms answer in a thread and in a handler. An alarm is told by its handler and its argument;
; the one that is left stands at a moment that never comes
    .name alarms
handles:
    jr $ra
    addu $v0, $0, $0
; an alarm after the time at $a0, with the handler `handles` and the argument $a1
set_it:
    addu $a2, $a1, $0
    lui $a1, %hi(handles)
    j set_alarm
    addiu $a1, $a1, %lo(handles)
set_it_in_handler:
    addu $a2, $a1, $0
    lui $a1, %hi(handles)
    j set_alarm_in_handler
    addiu $a1, $a1, %lo(handles)
; an alarm with another handler
set_other:
    addu $a2, $a1, $0
    lui $a1, %hi(rows)
    j set_alarm
    addiu $a1, $a1, %lo(rows)
    .data
rows:
    .word cancel_alarm, handles, 7, -105
    .word set_it, never, 7, 0
    .word set_it, never, 7, -104
    .word set_it, later, 7, -104
    .word set_it, never, 8, 0
    .word set_other, never, 7, 0
    .word cancel_alarm, handles, 9, -105
    .word cancel_alarm, peek, 7, -105
    .word set_it_in_handler, never, 7, -100
    .word set_it_in_handler, 2, 7, -100
    .word cancel_alarm_in_handler, handles, 7, -100
    .word cancel_alarm, handles, 7, 0
    .word cancel_alarm, handles, 7, -105
    .word cancel_alarm, rows, 7, 0
    .word cancel_alarm, handles, 8, 0
    .word set_it, later, 7, 0
    .word rows_in_handler, handler_rows, 0, 0
    .word cancel_alarm, handles, 7, -105
    .word cancel_alarm, handles, 8, 0
    .word set_it, never, 7, 0
    .word 0
handler_rows:
    .word set_it, never, 9, -100
    .word set_it, 2, 9, -100
    .word cancel_alarm, handles, 7, -100
    .word set_it_in_handler, never, 7, -104
    .word set_it_in_handler, never, 8, 0
    .word set_it_in_handler, later, 8, -104
    .word cancel_alarm_in_handler, handles, 9, -105
    .word cancel_alarm_in_handler, handles, 7, 0
    .word cancel_alarm_in_handler, handles, 7, -105
    .word 0
never:
    .word -1, -1
later:
    .word 0, 1
