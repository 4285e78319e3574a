    .name fault
    jal end
    bne $0, $0, end
    nop
end:
    jr $ra
    addu $v0, $0, $0
