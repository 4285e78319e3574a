; Returns what is in $v0 behind its first instruction: 0, since nothing is pending where a module begins
    .name begins
    .entry main
main:
    nop
    jr $ra
    nop
