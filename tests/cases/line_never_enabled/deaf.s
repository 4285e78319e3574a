; A thread that waits for an interrupt whose line was never enabled: the line is raised, no `line` of the trace follows,
; and the run ends quietly without a word on the console
    .name deaf
    .entry main
    .import intrman 1 1
    .fn register_handler 4
    .endi
    .import thbase 1 1
    .fn create_thread 4
    .fn start_thread 6
    .endi
    .import thsemap 1 1
    .fn create_semaphore 4
    .fn signal_in_handler 7
    .fn wait 8
    .endi
    .import stdio 1 1
    .fn print 4
    .endi
main:
    addu $s0, $ra, $0
    lui $a0, %hi(semaphore)
    jal create_semaphore
    addiu $a0, $a0, %lo(semaphore)
    addu $s1, $v0, $0
    addu $a0, $0, $0
    lui $a2, %hi(handler)
    addiu $a2, $a2, %lo(handler)
    jal register_handler
    addu $a3, $s1, $0
    lui $a0, %hi(thread)
    jal create_thread
    addiu $a0, $a0, %lo(thread)
    addu $a0, $v0, $0
    jal start_thread
    addu $a1, $s1, $0
    jr $s0
    addu $v0, $0, $0
; the handler of line 0: its argument is the semaphore
handler:
    addu $s0, $ra, $0
    jal signal_in_handler
    nop
    jr $s0
    addiu $v0, $0, 1
; the thread: its argument is the semaphore
waits:
    addu $s1, $a0, $0
again:
    jal wait
    addu $a0, $s1, $0
    lui $a0, %hi(text)
    jal print
    addiu $a0, $a0, %lo(text)
    j again
    nop
    .data
semaphore:
    .word 0, 0, 0, 5
thread:
    .word 0, 0, waits, 512, 20
text:
    .asciz "blank\n"
