; Imports stdio, which there is, and then sysmem of major version 2, which there is not: no stub is bound
    .name two
    .entry main
    .import stdio 1 1
    .fn print 4
    .endi
    .import sysmem 2 1
    .fn allocate 4
    .endi
main:
    jr $ra
    addu $v0, $0, $0
