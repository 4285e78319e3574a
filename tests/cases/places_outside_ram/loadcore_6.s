; RegisterLibraryEntries reads the header of a table at $a0, and RAM ends before its last word
    .name place
    nop
    lui $a0, 0x20
    addiu $a0, $a0, -16
    syscall 6
