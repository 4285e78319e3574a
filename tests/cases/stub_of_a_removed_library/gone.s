    .name gone
    jr $ra
    addiu $v0, $0, 1
