; 250 threads of 126 priorities wait for one semaphore, by priority; it is signalled 250 times, and then all wait again
    .name waiters
    .import thbase 1 1
    .fn create_thread 4
    .fn start_thread 6
    .fn change_priority 14
    .fn sleep 24
    .fn wake_up 25
    .endi
    .import thsemap 1 1
    .fn create_sema 4
    .fn signal_sema 6
    .fn wait_sema 8
    .endi
    .entry main
main:
; this thread is as good as the best of those that it wakes, so that it signals them all before they run
    addu $a0, $0, $0
    jal change_priority
    addiu $a1, $0, 1
    lui $a0, %hi(semaphore)
    jal create_sema
    addiu $a0, $a0, %lo(semaphore)
    addiu $s1, $0, 250
    addiu $s2, $0, 1
; the priorities, in steps of 37
each:
    addiu $s2, $s2, 37
    sltiu $t0, $s2, 127
    bne $t0, $0, make
    nop
    addiu $s2, $s2, -126
make:
    lui $a0, %hi(thread)
    addiu $a0, $a0, %lo(thread)
    sw $s2, 16($a0)
    jal create_thread
    nop
    addu $a0, $v0, $0
    jal start_thread
    nop
    addiu $s1, $s1, -1
    bne $s1, $0, each
    nop
; one of the worst priority wakes this thread when all others wait
    lui $a0, %hi(last)
    jal create_thread
    addiu $a0, $a0, %lo(last)
    addu $a0, $v0, $0
    jal start_thread
    nop
again:
    jal sleep
    addiu $s1, $0, 250
signal:
    jal signal_sema
    addiu $a0, $0, 1
    addiu $s1, $s1, -1
    bne $s1, $0, signal
    nop
    beq $0, $0, again
    nop
waits:
    jal wait_sema
    addiu $a0, $0, 1
    beq $0, $0, waits
    nop
wakes:
    jal wake_up
    addiu $a0, $0, 1
    beq $0, $0, wakes
    nop
    .data
semaphore:
    .word 1, 0, 0, 250
thread:
    .word 0x2000000, 0, waits, 256, 0
last:
    .word 0x2000000, 0, wakes, 256, 126
