; The last function of an export table is 0x41E00000: with the word 0 behind it a start of an import table, whose first
; pair of words, at `behind`, is no stub
    .name bad
    .entry main
    .export exports 1 1
    .word main, 0x41E00000
    .ende
main:
    nop
    nop
    nop
behind:
    jr $ra
    addu $v0, $0, $0
    .word 0, 0
