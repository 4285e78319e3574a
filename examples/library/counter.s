; A library of its own, `counter`. Its function 4 adds its argument to a number, and answers the sum. The number
; stands in this module, so all modules that call it share the number.
    .name counter
    .entry main
    .import loadcore 1 1
    .fn RegisterLibraryEntries 6
    .endi

; The library's name, its version, and its functions by their numbers. The numbers 0 to 3 are reserved.
library:
    .export counter 1 1
    .word reserved, reserved, reserved, reserved
    .word counter_add
    .ende

reserved:
    jr $ra
     addu $v0, $0, $0

; function 4: $a0 is what is added, and $v0 the sum. It calls nothing, so it needs no frame
counter_add:
    lui $t0, %hi(number)
    lw $v0, %lo(number)($t0)
    nop                         ; a loaded register may be used one instruction later
    addu $v0, $v0, $a0
    jr $ra
     sw $v0, %lo(number)($t0)

; The module stays where the library was registered: its functions are here. Else it is removed.
main:
    addiu $sp, $sp, -24
    sw $ra, 20($sp)
    lui $a0, %hi(library)
    jal RegisterLibraryEntries
     addiu $a0, $a0, %lo(library)
    lw $ra, 20($sp)
    addiu $sp, $sp, 24
    jr $ra
     sltu $v0, $0, $v0          ; 0 stays, 1 is removed; the answer was 0, or the number of an error

    .data
number:
    .word 0
