; The order in which threads run: 5 has priority 10, the others 20; 5 sleeps until 2 wakes it
    .name order
    .import thbase 1 1
    .fn create 4
    .fn start 6
    .fn sleep 24
    .fn wakeup 25
    .endi
    .entry main
; makes a thread of the words at $a0, and starts it
make:
    addu $s1, $ra, $0
    jal create
    nop
    addu $a0, $v0, $0
    jal start
    nop
    jr $s1
    nop
main:
    addu $s0, $ra, $0
    lui $a0, %hi(waker)
    jal make
    addiu $a0, $a0, %lo(waker)
    lui $a0, %hi(other)
    jal make
    addiu $a0, $a0, %lo(other)
    lui $a0, %hi(other)
    jal make
    addiu $a0, $a0, %lo(other)
    lui $a0, %hi(sleeper)
    jal make
    addiu $a0, $a0, %lo(sleeper)
    jr $s0
    addu $v0, $0, $0
sleeps:
    addu $s0, $ra, $0
    jal sleep
    nop
    jr $s0
    nop
wakes:
    addu $s0, $ra, $0
    jal wakeup
    addiu $a0, $0, 5
    jr $s0
    nop
returns:
    jr $ra
    nop
    .data
waker:
    .word 0x02000000, 0, wakes, 512, 20
other:
    .word 0x02000000, 0, returns, 512, 20
sleeper:
    .word 0x02000000, 0, sleeps, 512, 10
