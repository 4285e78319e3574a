; 250 threads hand a semaphore round: each waits for its own, and then signals that of the next one, so that a turn is two
; services and a switch
    .name turns
    .import thbase 1 1
    .fn create_thread 4
    .fn start_thread 6
    .endi
    .import thsemap 1 1
    .fn create_sema 4
    .fn signal_sema 6
    .fn wait_sema 8
    .endi
    .entry main
main:
    addu $s0, $ra, $0
    addiu $s1, $0, 250
each:
    lui $a0, %hi(semaphore)
    jal create_sema
    addiu $a0, $a0, %lo(semaphore)
    addu $s2, $v0, $0
    lui $a0, %hi(thread)
    jal create_thread
    addiu $a0, $a0, %lo(thread)
    addu $a0, $v0, $0
    jal start_thread
    addu $a1, $s2, $0
    addiu $s1, $s1, -1
    bne $s1, $0, each
    nop
    jal signal_sema
    addiu $a0, $0, 1
    jr $s0
    addu $v0, $0, $0
; a thread, which is given the id of its semaphore: the next one has the next id, and the last one the first
takes_turns:
    addu $s0, $a0, $0
    addiu $s1, $s0, 1
    addiu $t0, $0, 251
    bne $s1, $t0, turn
    nop
    addiu $s1, $0, 1
turn:
    jal wait_sema
    addu $a0, $s0, $0
    jal signal_sema
    addu $a0, $s1, $0
    beq $0, $0, turn
    nop
    .data
semaphore:
    .word 0, 0, 0, 1
thread:
    .word 0x2000000, 0, takes_turns, 256, 20
