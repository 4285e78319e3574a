; Asks for another major version of thvpool
    .name missing
    .import thvpool 2 1
    .fn create_pool 4
    .endi
    jr $ra
    addu $v0, $0, $0
