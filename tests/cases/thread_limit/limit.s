; 255 threads can be live, that of the loader among them. One that is deleted makes room for another, whose id is new
    .name limit
; makes threads of the words at $a0 as long as their ids are less than $a1, and answers the last answer
makes:
    addu $s3, $ra, $0
    addu $s4, $a0, $0
    addu $s5, $a1, $0
make:
    jal create
    addu $a0, $s4, $0
    sltu $t0, $v0, $s5
    bne $t0, $0, make
    nop
    jr $s3
    nop
    .data
rows:
    .word makes, words, 255, 255
    .word create, words, 0, -400
    .word create, priority, 0, -403
    .word create, stack, 0, -404
    .word delete, 100, 0, 0
    .word start, 100, 0, -407
    .word create, words, 0, 256
    .word create, words, 0, -400
    .word 0
words:
    .word 0, 0, peek, 256, 20
priority:
    .word 0, 0, peek, 256, 127
stack:
    .word 0, 0, peek, 255, 20
