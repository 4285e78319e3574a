; Leaves a live stub at 0x10080 in memory that is free
    .name first
    .entry main
main:
    lui $a0, 1
    syscall 261
    jr $ra
    addu $v0, $0, $0
    .word 0, 0, 0, 0, 0, 0, 0, 0, 0, 0, 0, 0
    .word 0, 0, 0, 0, 0, 0, 0, 0, 0, 0, 0
    .import sysmem 1 1
    .fn size 10
    .endi
