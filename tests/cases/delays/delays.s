; A thread that waits for a time is woken with 0 when its moment comes, with -418 when it is released; a wakeup does
; not end its wait, and a terminated thread is not woken
    .name delays
    .import intrman 1 1
    .fn turn_off 8
    .fn turn_on 9
    .endi
; waits for as many microseconds as its argument says, and stores what that answers
waits:
    addu $s0, $ra, $0
    jal delay
    nop
    lui $t0, %hi(seen)
    addiu $t0, $t0, %lo(seen)
    jr $s0
    sw $v0, 0($t0)
    .data
rows:
    .word create, waiting, 0, 2
    .word start, 2, 1000, 0
    .word refer, 2, status, 0
    .word peek, status_8, 0, 4
    .word peek, status_36, 0, 2
    .word peek, status_40, 0, 0
    .word wakeup, 2, 0, 0
    .word peek, seen, 0, 1
    .word release, 2, 0, 0
    .word peek, seen, 0, -418
    .word refer, 2, status, 0
    .word peek, status_8, 0, 0x10
    .word peek, status_44, 0, 1
    .word start, 2, 1000, 0
    .word suspend, 2, 0, 0
    .word refer, 2, status, 0
    .word peek, status_8, 0, 0xC
    .word resume, 2, 0, 0
    .word terminate, 2, 0, 0
    .word start, 2, 50, 0
    .word peek, seen, 0, -418
    .word delay, 100, 0, 0
    .word peek, seen, 0, 0
    .word delay, 0, 0, 0
    .word disable, 0, 0, 0
    .word delay, 1, 0, -417
    .word enable, 0, 0, 0
    .word turn_off, 0, 0, 0
    .word delay, 1, 0, -417
    .word turn_on, 0, 0, 0
    .word rows_in_handler, handler_rows, 0, 0
    .word 0
handler_rows:
    .word delay, 1, 0, -100
    .word delay, 0, 0, -100
    .word 0
waiting:
    .word 0, 0, waits, 256, 5
seen:
    .word 1
status:
    .word 0, 0
status_8:
    .word 0, 0, 0, 0, 0, 0, 0
status_36:
    .word 0
status_40:
    .word 0
status_44:
    .word 0
