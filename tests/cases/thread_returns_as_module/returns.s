; A thread other than the loader's does not return as a module does
    .name returns
    .import thbase 1 1
    .fn create 4
    .fn start 6
    .endi
    .entry main
main:
    addu $s0, $ra, $0
    lui $a0, %hi(param)
    jal create
    addiu $a0, $a0, %lo(param)
    jal start
    addu $a0, $v0, $0
    jr $s0
    addu $v0, $0, $0
wrong:
    syscall 3842
    .data
param:
    .word 0, 0, wrong, 256, 20
