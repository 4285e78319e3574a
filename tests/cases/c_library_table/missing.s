; Asks for another major version of sysclib
    .name missing
    .import sysclib 2 1
    .fn memcpy 12
    .endi
    jr $ra
    addu $v0, $0, $0
