; Is bound to thfpool, whose minor version is not compared
    .name fixed
    .import thfpool 1 2
    .fn create_pool 4
    .endi
    .data
rows:
    .word create_pool, words, 0, 1
    .word peek, create_pool, 0, 0x8001910
    .word 0
words:
    .word 0, 0, 10, 2
