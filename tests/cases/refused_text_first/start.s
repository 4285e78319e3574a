; The text is the first two words of an import table
    .word 0x41E00000, 0
