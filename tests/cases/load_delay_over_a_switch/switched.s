; Threads are switched between a load and the instruction behind it, and each goes on as if that had not been. Thread 2
; loads. The handler of line 0 wakes thread 3, which uses the same register, that of line 1 lets thread 4 begin, with
; nothing pending, and those of lines 2 and 3 suspend thread 2 and resume it
    .name switched
    .entry main
    .import intrman 1 1
    .fn register 4
    .fn enable_line 6
    .endi
    .import thbase 1 1
    .fn create 4
    .fn start 6
    .fn change 15
    .fn sleep 24
    .fn wakeup 26
    .fn suspend 30
    .fn resume 32
    .endi
main:
    addu $s0, $ra, $0
    addu $s1, $0, $0
    lui $s2, %hi(handlers)
    addiu $s2, $s2, %lo(handlers)
lines:
    lw $a2, 0($s2)
    addu $a0, $s1, $0
    beq $a2, $0, threads
    addiu $s2, $s2, 4
    jal register
    nop
    jal enable_line
    addu $a0, $s1, $0
    j lines
    addiu $s1, $s1, 1
threads:
    lui $s3, %hi(table)
    addiu $s3, $s3, %lo(table)
    lui $s2, %hi(thread_2)
    jal make
    addiu $s2, $s2, %lo(thread_2)
    jal make
    nop
    jal make
    nop
    jr $s0
    addu $v0, $0, $0
; makes the thread of the words at $s2, starts it with the table as its argument, and goes on to the words behind
make:
    addu $s1, $ra, $0
    jal create
    addu $a0, $s2, $0
    addu $a1, $s3, $0
    jal start
    addu $a0, $v0, $0
    jr $s1
    addiu $s2, $s2, 20
loads:
    addiu $t0, $0, 1
    lw $t0, 0($a0)
; tick 164: line 0
    sw $t0, 4($a0)
    sw $t0, 8($a0)
    addiu $t0, $0, 2
    lw $t0, 0($a0)
; tick 185: line 1
    sw $t0, 12($a0)
    sw $t0, 16($a0)
    addiu $t0, $0, 3
    lw $t0, 0($a0)
; tick 206: line 2
    sw $t0, 20($a0)
    sw $t0, 24($a0)
    jr $ra
    nop
sleeps:
    addu $s0, $ra, $0
    addu $s1, $a0, $0
    addiu $t0, $0, 4
    jal sleep
    nop
    sw $t0, 28($s1)
    jr $s0
    lw $t0, 36($s1)
begins:
    nop
    sw $t0, 32($a0)
    jr $ra
    nop
wakes:
    addu $s0, $ra, $0
    jal wakeup
    addiu $a0, $0, 3
    jr $s0
    addu $v0, $0, $0
prefers:
    addu $s0, $ra, $0
    addiu $a1, $0, 5
    jal change
    addiu $a0, $0, 4
    jr $s0
    addu $v0, $0, $0
suspends:
    addu $s0, $ra, $0
    jal suspend
    addiu $a0, $0, 2
    jr $s0
    addu $v0, $0, $0
resumes:
    addu $s0, $ra, $0
    jal resume
    addiu $a0, $0, 2
    jr $s0
    addu $v0, $0, $0
    .data
handlers:
    .word wakes, prefers, suspends, resumes, 0
thread_2:
    .word 0x02000000, 0, loads, 512, 20
    .word 0x02000000, 0, sleeps, 512, 10
    .word 0x02000000, 0, begins, 512, 30
table:
    .word 5
    .word 7, 7, 7, 7, 7, 7, 7, 7
    .word 9
