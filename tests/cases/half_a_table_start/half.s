; The second word would have to be 0
    .word 0x41E00000, 1
