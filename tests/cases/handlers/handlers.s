; What handlers do to the thread that they interrupt, and to their own lines. The script raises the lines
;   0: ends the thread that its argument names        1: suspends the thread 3
;   2: resumes 3, and wakes 4, which runs             3: rotates the threads of priority 20, and turns interrupts off
;   4: enables its own line, and gives 0              5: ends the threads 3 and 4
    .name handlers
    .entry main
    .import intrman 1 1
    .fn register 4
    .fn enable_line 6
    .fn off 8
    .fn in_handler 23
    .endi
    .import thbase 1 1
    .fn create 4
    .fn start 6
    .fn terminate 11
    .fn rotate 17
    .fn wakeup 26
    .fn suspend 30
    .fn resume 32
    .endi
main:
    addu $s0, $ra, $0
    addu $s1, $0, $0
    lui $s2, %hi(table)
    addiu $s2, $s2, %lo(table)
lines:
    lw $a2, 0($s2)
    addiu $a3, $0, 2
    beq $a2, $0, threads
    addu $a0, $s1, $0
    jal register
    addiu $s2, $s2, 4
    jal enable_line
    addu $a0, $s1, $0
    j lines
    addiu $s1, $s1, 1
threads:
    jal make
    nop
    jal make
    nop
    jal make
    nop
    jr $s0
    addu $v0, $0, $0
; makes a thread and starts it
make:
    addu $s1, $ra, $0
    lui $a0, %hi(looper)
    jal create
    addiu $a0, $a0, %lo(looper)
    jal start
    addu $a0, $v0, $0
    jr $s1
    nop
loops:
    addiu $t0, $t0, 1
    beq $0, $0, loops
    addiu $t1, $t1, 1
; it is a handler that asks, and $gp and $a0 are as they were given
ends:
    addu $s0, $ra, $0
    jal terminate
    nop
    jal in_handler
    nop
    jr $s0
    nop
suspends:
    addu $s0, $ra, $0
    jal suspend
    addiu $a0, $0, 3
    jr $s0
    addiu $v0, $0, 1
wakes:
    addu $s0, $ra, $0
    jal resume
    addiu $a0, $0, 3
    jal wakeup
    addiu $a0, $0, 4
    jr $s0
    addiu $v0, $0, 1
rotates:
    addu $s0, $ra, $0
    jal rotate
    addiu $a0, $0, 20
    jal off
    nop
    jr $s0
    addiu $v0, $0, 1
enables:
    addu $s0, $ra, $0
    jal enable_line
    addiu $a0, $0, 4
    jr $s0
    addu $v0, $0, $0
ends_all:
    addu $s0, $ra, $0
    jal terminate
    addiu $a0, $0, 3
    jal terminate
    addiu $a0, $0, 4
    jr $s0
    addu $v0, $0, $0
    .data
table:
    .word ends, suspends, wakes, rotates, enables, ends_all, 0
looper:
    .word 0x02000000, 0, loops, 512, 20
