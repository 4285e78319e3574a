; 255 semaphores, 255 event flags and 255 mailboxes can be live. One that is deleted makes room for another, whose id
; is new
    .name limits
    .import thsemap 1 1
    .fn create_sema 4
    .fn delete_sema 5
    .endi
    .import thevent 1 1
    .fn create_flag 4
    .fn delete_flag 5
    .endi
    .import thmsgbx 1 1
    .fn create_box 4
    .fn delete_box 5
    .endi
; calls $a1 255 times with the words at $a0, and answers the last answer
makes_255:
    addu $s3, $ra, $0
    addu $s4, $a0, $0
    addu $s5, $a1, $0
    addiu $s6, $0, 255
make:
    jalr $ra, $s5
    addu $a0, $s4, $0
    addiu $s6, $s6, -1
    bne $s6, $0, make
    nop
    jr $s3
    nop
    .data
rows:
    .word makes_255, words, create_sema, 255
    .word makes_255, words, create_flag, 255
    .word makes_255, words, create_box, 255
    .word create_sema, words, 0, -400
    .word create_flag, words, 0, -400
    .word create_box, words, 0, -400
; the words are looked at before
    .word create_sema, attribute, 0, -401
    .word create_sema, too_many, 0, -420
    .word create_flag, attribute, 0, -401
    .word create_box, attribute, 0, -401
    .word delete_sema, 100, 0, 0
    .word create_sema, words, 0, 256
    .word create_sema, words, 0, -400
    .word delete_flag, 255, 0, 0
    .word create_flag, words, 0, 256
    .word create_flag, words, 0, -400
    .word delete_box, 1, 0, 0
    .word create_box, words, 0, 256
    .word create_box, words, 0, -400
    .word 0
words:
    .word 0, 0, 0, 1
attribute:
    .word 8, 0, 0, 1
too_many:
    .word 0, 0, 2, 1
