; A module that calls each row of the table `rows`: a function, two arguments, and the answer that must come.
; tests/cases/README.md, "Rows", says more, and which sources of cases stand behind this one. All services of thbase are
; imported here
    .entry main
    .import thbase 1 1
    .fn create 4
    .fn delete 5
    .fn start 6
    .fn exit 8
    .fn exit_delete 9
    .fn terminate 10
    .fn terminate_in_handler 11
    .fn disable 12
    .fn enable 13
    .fn change 14
    .fn change_in_handler 15
    .fn rotate 16
    .fn rotate_in_handler 17
    .fn release 18
    .fn release_in_handler 19
    .fn own_id 20
    .fn refer 22
    .fn refer_in_handler 23
    .fn sleep 24
    .fn wakeup 25
    .fn wakeup_in_handler 26
    .fn cancel 27
    .fn cancel_in_handler 28
    .fn suspend 29
    .fn suspend_in_handler 30
    .fn resume 31
    .fn resume_in_handler 32
    .fn delay 33
    .fn get_time 34
    .fn set_alarm 35
    .fn set_alarm_in_handler 36
    .fn cancel_alarm 37
    .fn cancel_alarm_in_handler 38
    .fn to_clock 39
    .fn to_usec 40
    .endi
main:
    addu $s0, $ra, $0
    lui $s1, %hi(rows)
    addiu $s1, $s1, %lo(rows)
; calls the rows from $s1 on, and returns to $s0
each_row:
    addu $s2, $0, $0
next:
    lw $t0, 0($s1)
    lw $a0, 4($s1)
    lw $a1, 8($s1)
    beq $t0, $0, done
    addiu $s2, $s2, 1
    jalr $ra, $t0
    addiu $s1, $s1, 16
    lw $t1, -4($s1)
    nop
    beq $v0, $t1, next
    nop
    sll $v0, $s2, 2
    jr $s0
    nop
done:
    addu $v0, $0, $0
    jr $s0
    nop
; the word at $a0
peek:
    lw $v0, 0($a0)
    jr $ra
    nop
; makes $a1 the word at $a0
poke:
    sw $a1, 0($a0)
    jr $ra
    addu $v0, $0, $0
; has the rows at $a0 called by the handler of an alarm, waits for its end, and answers as the module returns
rows_in_handler:
    addu $s3, $ra, $0
    lui $s4, %hi(handler_answer)
    addiu $s4, $s4, %lo(handler_answer)
    addiu $s5, $0, -1
    sw $s5, 0($s4)
    addu $a2, $a0, $0
    lui $a0, %hi(at_once)
    addiu $a0, $a0, %lo(at_once)
    lui $a1, %hi(alarm_handler)
    jal set_alarm
    addiu $a1, $a1, %lo(alarm_handler)
    bne $v0, $0, no_alarm
    nop
before_handler:
    lw $v0, 0($s4)
    nop
    beq $v0, $s5, before_handler
    nop
no_alarm:
    jr $s3
    nop
; the handler: its argument is the table. The alarm does not come again
alarm_handler:
    addu $s3, $ra, $0
    addu $s1, $a0, $0
    lui $s0, %hi(handler_ends)
    j each_row
    addiu $s0, $s0, %lo(handler_ends)
handler_ends:
    lui $t0, %hi(handler_answer)
    addiu $t0, $t0, %lo(handler_answer)
    sw $v0, 0($t0)
    jr $s3
    addu $v0, $0, $0
    .data
at_once:
    .word 0, 0
handler_answer:
    .word 0
    .text
