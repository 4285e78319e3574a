; A thread that is slower than the interrupts which it waits for: the semaphore counts to 1 at most, so that a signal is
; lost where another one stands. Five lines are raised, and three rounds are printed
    .name slow
    .entry main
    .import intrman 1 1
    .fn register_handler 4
    .fn enable_line 6
    .endi
    .import thbase 1 1
    .fn create_thread 4
    .fn start_thread 6
    .fn delay 33
    .endi
    .import thsemap 1 1
    .fn create_semaphore 4
    .fn signal_in_handler 7
    .fn wait 8
    .endi
    .import stdio 1 1
    .fn print 4
    .endi
main:
    addu $s0, $ra, $0
    lui $a0, %hi(semaphore)
    jal create_semaphore
    addiu $a0, $a0, %lo(semaphore)
    addu $s1, $v0, $0
    addu $a0, $0, $0
    lui $a2, %hi(handler)
    addiu $a2, $a2, %lo(handler)
    jal register_handler
    addu $a3, $s1, $0
    jal enable_line
    addu $a0, $0, $0
    lui $a0, %hi(thread)
    jal create_thread
    addiu $a0, $a0, %lo(thread)
    addu $a0, $v0, $0
    jal start_thread
    addu $a1, $s1, $0
    jr $s0
    addu $v0, $0, $0
; the handler of line 0: its argument is the semaphore
handler:
    addu $s0, $ra, $0
    jal signal_in_handler
    nop
    jr $s0
    addiu $v0, $0, 1
; the thread: its argument is the semaphore; each round takes 40 milliseconds
rounds:
    addu $s1, $a0, $0
    addu $s2, $0, $0
round:
    jal wait
    addu $a0, $s1, $0
    lui $a0, 0
    jal delay
    ori $a0, $a0, 40000
    addiu $s2, $s2, 1
    lui $a0, %hi(text)
    addiu $a0, $a0, %lo(text)
    jal print
    addu $a1, $s2, $0
    j round
    nop
    .data
semaphore:
    .word 0, 0, 0, 1
thread:
    .word 0, 0, rounds, 512, 20
text:
    .asciz "round %d\n"
