; 255 alarms stand, and no further one is set in a thread or in a handler until one of them is cancelled
    .name limit
handles:
    jr $ra
    addu $v0, $0, $0
; sets alarms with the arguments $a0 to $a1, and answers the last answer
sets:
    addu $s3, $ra, $0
    addu $s4, $a0, $0
    addu $s5, $a1, $0
more:
    addu $a1, $s4, $0
    lui $a0, %hi(never)
    jal set_it
    addiu $a0, $a0, %lo(never)
    bne $s4, $s5, more
    addiu $s4, $s4, 1
    jr $s3
    nop
; an alarm after the time at $a0, with the handler `handles` and the argument $a1
set_it:
    addu $a2, $a1, $0
    lui $a1, %hi(handles)
    j set_alarm
    addiu $a1, $a1, %lo(handles)
set_it_in_handler:
    addu $a2, $a1, $0
    lui $a1, %hi(handles)
    j set_alarm_in_handler
    addiu $a1, $a1, %lo(handles)
    .data
rows:
    .word sets, 1, 254, 0
    .word rows_in_handler, handler_rows, 0, 0
    .word set_it, never, 256, 0
    .word set_it, never, 257, -400
    .word set_it, never, 256, -104
    .word cancel_alarm, handles, 100, 0
    .word set_it, never, 257, 0
    .word set_it, never, 100, -400
    .word 0
; the alarm of this handler is the 255th
handler_rows:
    .word set_it_in_handler, never, 255, -400
    .word set_it_in_handler, never, 254, -104
    .word 0
never:
    .word -1, -1
