    .name fault
    bltzal $0, end
    jalr $t0, $ra
    nop
end:
    jr $ra
    addu $v0, $0, $0
