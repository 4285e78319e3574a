; Is bound to sysclib, whose minor version is not compared
    .name bound
    .import sysclib 1 2
    .fn memcpy 12
    .fn strlen 27
    .endi
    .import loadcore 1 1
    .fn register_library 6
    .fn release_library 7
    .endi
    .data
rows:
    .word peek, memcpy, 0, 0x08001A30
    .word peek, strlen, 0, 0x08001A6C
    .word register_library, 0x600, 0, -212
    .word release_library, 0x600, 0, -215
    .word strlen, text, 0, 4
    .word 0
text:
    .asciz "text"
