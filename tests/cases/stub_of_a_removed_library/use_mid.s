    .name use
    .import mid 1 1
    .fn it 0
    .endi
    .entry main
main:
    addu $s0, $ra, $0
    jal it
    nop
    jr $s0
    addu $v0, $0, $0
