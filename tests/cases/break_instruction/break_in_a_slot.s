; In the slot of a jump
    .name fault
    j end
    break 7
end:
    jr $ra
    addu $v0, $0, $0
