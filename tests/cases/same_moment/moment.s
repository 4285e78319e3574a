; Two alarms and a delay come at one moment, in the order in which they were made
    .name moment
    .entry main
    .import thbase 1 1
    .fn create 4
    .fn start 6
    .fn delay 33
    .fn set_alarm 35
    .endi
main:
    addu $s0, $ra, $0
; the thread waits from moment 29 on, which 5 microseconds or 184 ticks later is 213
    lui $a0, %hi(first)
    addiu $a0, $a0, %lo(first)
    lui $a1, %hi(once)
    addiu $a1, $a1, %lo(once)
    jal set_alarm
    addiu $a2, $0, 1
    lui $a0, %hi(waiting)
    jal create
    addiu $a0, $a0, %lo(waiting)
    addu $a0, $v0, $0
    jal start
    nop
    lui $a0, %hi(third)
    addiu $a0, $a0, %lo(third)
    lui $a1, %hi(once)
    addiu $a1, $a1, %lo(once)
    jal set_alarm
    addiu $a2, $0, 3
    jr $s0
    addu $v0, $0, $0
once:
    jr $ra
    addu $v0, $0, $0
waits:
    addu $s0, $ra, $0
    jal delay
    addiu $a0, $0, 5
    jr $s0
    nop
    .data
first:
    .word 206, 0
third:
    .word 173, 0
waiting:
    .word 0, 0, waits, 256, 5
