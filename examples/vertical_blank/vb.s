; A semaphore that counts vertical blanks, behind the library vbcount: the first of three modules. The other two find
; the semaphore by calling the library, and know nothing else of this module.
    .name vb
    .entry main
    .import loadcore 1 1
    .fn register_library 6
    .endi
    .import thsemap 1 1
    .fn create_sema 4
    .endi
; the library: its functions 0 to 3 are reserved, and 4 is blanks
vbcount:
    .export vbcount 1 1
    .word nothing, nothing, nothing, nothing, blanks
    .ende
nothing:
    jr $ra
    addu $v0, $0, $0
; answers the id of the semaphore
blanks:
    lui $v0, %hi(blank)
    lw $v0, %lo(blank)($v0)
    jr $ra
    nop
main:
    addu $s0, $ra, $0
    lui $a0, %hi(words)
    jal create_sema
    addiu $a0, $a0, %lo(words)
    lui $t0, %hi(blank)
    sw $v0, %lo(blank)($t0)
    lui $a0, %hi(vbcount)
    jal register_library
    addiu $a0, $a0, %lo(vbcount)
    jr $s0
    addu $v0, $0, $0
    .data
; what the semaphore is made with: attribute, option, first count, most
words:
    .word 0, 0, 0, 200
; the id of the semaphore
blank:
    .word 0
