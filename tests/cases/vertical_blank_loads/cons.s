; The third module of examples/vertical_blank, whose thread keeps its count and the address of its text in memory. It
; loads both, and the second instruction behind the load of the count is the first that reads it; the one in between
; loads the address. It prints the same as there, and the trace is the same but for the length of its image. vb.irx and
; prod.irx are those of the example
    .name cons
    .entry main
    .import thbase 1 1
    .fn create 4
    .fn start 6
    .endi
    .import thsemap 1 1
    .fn wait 8
    .endi
    .import vbcount 1 1
    .fn blanks 4
    .endi
    .import stdio 1 1
    .fn print 4
    .endi
main:
    addu $s0, $ra, $0
    jal blanks
    nop
    addu $s1, $v0, $0
    lui $a0, %hi(counter)
    jal create
    addiu $a0, $a0, %lo(counter)
    addu $a0, $v0, $0
    jal start
    addu $a1, $s1, $0
    jr $s0
    addu $v0, $0, $0
; the thread: its argument is the semaphore
counts:
    addu $s0, $ra, $0
    addu $s1, $a0, $0
    lui $s2, %hi(count)
    addiu $s2, $s2, %lo(count)
    addiu $s3, $0, 200
more:
    jal wait
    addu $a0, $s1, $0
    lw $t0, 0($s2)
    lw $a0, 4($s2)
    addiu $s4, $t0, 1
    jal print
    addu $a1, $s4, $0
    bne $s4, $s3, more
    sw $s4, 0($s2)
    lui $a0, %hi(done)
    jal print
    addiu $a0, $a0, %lo(done)
    jr $s0
    nop
    .data
; what the thread is made with: attributes, option, entry, bytes of stack, priority
counter:
    .word 0, 0, counts, 512, 20
; how many lines are printed, and the text of a line
count:
    .word 0, tick
tick:
    .asciz "tick %d\n"
done:
    .asciz "done 200\n"
