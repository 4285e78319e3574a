; An alarm whose handler cancels it and sets it again: it has a new number, and the result does not touch it. The
; third time the handler gives up
    .name again
    .entry main
    .import thbase 1 1
    .fn set_alarm 35
    .fn set_alarm_in_handler 36
    .fn cancel_alarm_in_handler 38
    .endi
main:
    addu $s0, $ra, $0
    lui $a0, %hi(time)
    addiu $a0, $a0, %lo(time)
    lui $a1, %hi(handles)
    addiu $a1, $a1, %lo(handles)
    jal set_alarm
    addiu $a2, $0, 7
    jr $s0
    addu $v0, $0, $0
handles:
    addu $s0, $ra, $0
    lui $s1, %hi(handles)
    addiu $s1, $s1, %lo(handles)
    addu $a0, $s1, $0
    jal cancel_alarm_in_handler
    addiu $a1, $0, 7
    lui $s2, %hi(left)
    lw $t0, %lo(left)($s2)
    nop
    beq $t0, $0, done
    addiu $t0, $t0, -1
    sw $t0, %lo(left)($s2)
    lui $a0, %hi(time)
    addiu $a0, $a0, %lo(time)
    addu $a1, $s1, $0
    jal set_alarm_in_handler
    addiu $a2, $0, 7
done:
    jr $s0
    addiu $v0, $0, 5
    .data
time:
    .word 1000, 0
left:
    .word 2
