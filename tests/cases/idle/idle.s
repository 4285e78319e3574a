; While nothing runs, a line, an alarm and a delay come at moment 1000, in this order; the alarm comes again 256 ticks
; later, until line 1 comes, whose handler cancels it
    .name idle
    .entry main
    .import intrman 1 1
    .fn register 4
    .fn enable_line 6
    .endi
    .import thbase 1 1
    .fn create 4
    .fn start 6
    .fn sleep 24
    .fn delay 33
    .fn set_alarm 35
    .fn cancel_alarm 38
    .endi
main:
    addu $s0, $ra, $0
    addu $a0, $0, $0
    lui $a2, %hi(again)
    addiu $a2, $a2, %lo(again)
    jal register
    addu $a3, $0, $0
    jal enable_line
    addu $a0, $0, $0
    addiu $a0, $0, 1
    lui $a2, %hi(cancels)
    addiu $a2, $a2, %lo(cancels)
    jal register
    addu $a3, $0, $0
    jal enable_line
    addiu $a0, $0, 1
    jal make
    nop
    jal make
    nop
    jal make
    nop
    lui $a0, %hi(ticks)
    addiu $a0, $a0, %lo(ticks)
    lui $a1, %hi(later)
    addiu $a1, $a1, %lo(later)
    jal set_alarm
    addu $a2, $0, $0
    jal make
    nop
    jal start
    addu $a0, $v0, $0
    jr $s0
    addu $v0, $0, $0
; makes a thread
make:
    lui $a0, %hi(sleeper)
    j create
    addiu $a0, $a0, %lo(sleeper)
; 24 microseconds, or 884 ticks, from moment 116 on
sleeps:
    addiu $t0, $0, 4
before:
    addiu $t0, $t0, -1
    bne $t0, $0, before
    nop
    nop
    nop
    addu $s0, $ra, $0
    jal delay
    addiu $a0, $0, 24
    jal sleep
    nop
    jr $s0
    nop
again:
    jr $ra
    addiu $v0, $0, 1
later:
    jr $ra
    addiu $v0, $0, 256
cancels:
    addu $s0, $ra, $0
    lui $a0, %hi(later)
    addiu $a0, $a0, %lo(later)
    jal cancel_alarm
    addu $a1, $0, $0
    jr $s0
    addu $v0, $0, $0
    .data
ticks:
    .word 927, 0
sleeper:
    .word 0, 0, sleeps, 512, 20
