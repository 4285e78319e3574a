; A thread that waits for 200 vertical blanks, and prints a line for each: the third of three modules. The semaphore
; keeps the thread from running until the handler of the second module signals it.
    .name cons
    .entry main
    .import thbase 1 1
    .fn create 4
    .fn start 6
    .endi
    .import thsemap 1 1
    .fn wait 8
    .endi
    .import vbcount 1 1
    .fn blanks 4
    .endi
    .import stdio 1 1
    .fn print 4
    .endi
main:
    addu $s0, $ra, $0
    jal blanks
    nop
    addu $s1, $v0, $0
    lui $a0, %hi(counter)
    jal create
    addiu $a0, $a0, %lo(counter)
    addu $a0, $v0, $0
    jal start
    addu $a1, $s1, $0
    jr $s0
    addu $v0, $0, $0
; the thread: its argument is the semaphore
counts:
    addu $s0, $ra, $0
    addu $s1, $a0, $0
    addu $s2, $0, $0
    addiu $s3, $0, 200
more:
    jal wait
    addu $a0, $s1, $0
    addiu $s2, $s2, 1
    lui $a0, %hi(tick)
    addiu $a0, $a0, %lo(tick)
    jal print
    addu $a1, $s2, $0
    bne $s2, $s3, more
    nop
    lui $a0, %hi(done)
    jal print
    addiu $a0, $a0, %lo(done)
    jr $s0
    nop
    .data
; what the thread is made with: attributes, option, entry, bytes of stack, priority
counter:
    .word 0, 0, counts, 512, 20
tick:
    .asciz "tick %d\n"
done:
    .asciz "done 200\n"
