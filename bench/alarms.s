; begins the loop of mixed.s with 255 alarms set, for a time that does not come
    .name alarms
    .import thbase 1 1
    .fn set_alarm 35
    .endi
    .entry main
main:
    addiu $s1, $0, 255
each:
    lui $a0, %hi(time)
    addiu $a0, $a0, %lo(time)
    lui $a1, %hi(main)
    addiu $a1, $a1, %lo(main)
    jal set_alarm
    addu $a2, $s1, $0
    addiu $s1, $s1, -1
    bne $s1, $0, each
    nop
    beq $0, $0, loop
    nop
    .data
time:
    .word 0, 1
