    .name fault
    j end
    j end
    nop
end:
    jr $ra
    addu $v0, $0, $0
