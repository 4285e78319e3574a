; A word that is no instruction, in the slot of a branch that is not taken
    .name fault
    bne $0, $0, end
    .word 0xFFFFFFFF
end:
    jr $ra
    addu $v0, $0, $0
