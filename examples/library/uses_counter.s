; Uses the library `counter`, of which it knows no more than name, version and the number of a function: it adds 5, and
; prints the sum. Then it has done its work, and asks to be removed.
    .name uses
    .entry main
    .import counter 1 1
    .fn counter_add 4
    .endi
    .import stdio 1 1
    .fn printf 4
    .endi

main:
    addiu $sp, $sp, -24
    sw $ra, 20($sp)
    jal counter_add
     addiu $a0, $0, 5           ; in the delay slot: executed before the call
    lui $a0, %hi(text)
    addiu $a0, $a0, %lo(text)
    jal printf
     addu $a1, $v0, $0
    lw $ra, 20($sp)
    addiu $sp, $sp, 24
    jr $ra
     addiu $v0, $0, 1           ; 1: the module is removed

    .data
text:
    .asciz "the number is %d\n"
