; The addition in the slot overflows: it is the instruction that is told, and it changes nothing
    .name fault
    .entry main
main:
    lui $t0, 0x7FFF
    j main
    add $t0, $t0, $t0
