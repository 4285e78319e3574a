    .name fault
    bne $0, $0, end
    jr $ra
    nop
end:
    jr $ra
    addu $v0, $0, $0
