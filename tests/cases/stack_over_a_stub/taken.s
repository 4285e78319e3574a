; The first module stays, with a live stub
    .name taken
    .import stdio 1 1
    .fn print 4
    .endi
    .entry main
main:
    jr $ra
    addu $v0, $0, $0
