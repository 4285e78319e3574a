"""The module that `--generate` makes: threads that add to a sum, and a loader that waits for them and prints it."""

import struct

# Each word of the text and the data, the type of its relocation entry, if it has one, and its source.
LISTING = """
41e00000    .import thbase 1 1
00000000
00000101
61626874
00006573
03e00008    .fn CreateThread 4
24000004
03e00008    .fn StartThread 6
24000006
00000000    .endi
00000000
41e00000    .import thsemap 1 1
00000000
00000101
65736874
0070616d
03e00008    .fn CreateSema 4
24000004
03e00008    .fn SignalSema 6
24000006
03e00008    .fn WaitSema 8
24000008
00000000    .endi
00000000
41e00000    .import stdio 1 1
00000000
00000101
69647473
0000006f
03e00008    .fn printf 4
24000004
00000000    .endi
00000000
27bdffc0    main: addiu $sp,$sp,-64
afbf003c    sw $ra,60($sp)
3c040000 5  lui $a0,%hi(semp)
0c000010 4  jal CreateSema
24840140 6  addiu $a0,$a0,%lo(semp)
3c110000 5  lui $s1,%hi(sem)
ae220168 6  sw $v0,%lo(sem)($s1)
00008021    addu $s0,$0,$0
3c040000 5  more: lui $a0,%hi(thp)
0c000005 4  jal CreateThread
24840150 6  addiu $a0,$a0,%lo(thp)
00402021    addu $a0,$v0,$0
26100001    addiu $s0,$s0,1
0c000007 4  jal StartThread
02002821    addu $a1,$s0,$0
24080000    addiu $t0,$0,N
1608fff7    bne $s0,$t0,more
00000000    nop
00009021    addu $s2,$0,$0
8e240168 6  wait: lw $a0,%lo(sem)($s1)
26520001    addiu $s2,$s2,1
0c000014 4  jal WaitSema
00000000    nop
1650fffb    bne $s2,$s0,wait
00000000    nop
3c060000 5  lui $a2,%hi(total)
8cc60164 6  lw $a2,%lo(total)($a2)
3c040000 5  lui $a0,%hi(words)
02002821    addu $a1,$s0,$0
0c00001d 4  jal printf
2484016c 6  addiu $a0,$a0,%lo(words)
8fbf003c    lw $ra,60($sp)
00001021    addu $v0,$0,$0
03e00008    jr $ra
27bd0040    addiu $sp,$sp,64
3c090000 5  work: lui $t1,%hi(total)
240b03e8    addiu $t3,$0,1000
8d280164 6  loop: lw $t0,%lo(total)($t1)
256bffff    addiu $t3,$t3,-1
01044021    addu $t0,$t0,$a0
1560fffc    bne $t3,$0,loop
ad280164 6  sw $t0,%lo(total)($t1)
3c040000 5  lui $a0,%hi(sem)
8c840168 6  lw $a0,%lo(sem)($a0)
00000000    nop
08000012 4  j SignalSema
00000000    nop
00000000    semp: .word 0,0,0,250
00000000
00000000
000000fa
02000000    thp: .word 0x02000000,0,work,512,20
00000000
00000110 2
00000200
00000014
00000000    total: .word 0
00000000    sem: .word 0
6b726f77    words: .asciz "workers %d sum %d\\n"
20737265
73206425
25206d75
00000a64
"""

ENTRY, TEXT, THREADS = 0x84, 0x140, 0xC0  # places: where it is entered, the text's end, `addiu $t0,$0,N`


def generated(threads):
    """The file of the module with so many threads."""
    lines = LISTING.strip().splitlines()
    words = [int(line[:8], 16) for line in lines]
    words[THREADS // 4] += threads
    entries = [(4 * n, int(line[9])) for n, line in enumerate(lines) if line[9:10].strip()]
    image = struct.pack(f"<{len(words)}I", *words)
    return module(b"gen", image, b"".join(struct.pack("<II", *entry) for entry in entries))


def module(name, image, entries):
    """An IRX file: its header, two program headers, the information, the image, the entries, two section headers."""
    info = struct.pack("<6IH", 0xFFFFFFFF, ENTRY, 0, TEXT, len(image) - TEXT, 0, 0x0101) + name + b"\0"
    info_at = 52 + 2 * 32
    image_at = info_at + (len(info) + 3) // 4 * 4
    entries_at = image_at + len(image)
    sections_at = entries_at + len(entries)
    header = b"\x7fELF\1\1\1".ljust(16, b"\0") + struct.pack(
        "<HHIIIIIHHHHHH", 0xFF80, 8, 1, ENTRY, 52, sections_at, 0, 52, 32, 2, 40, 2, 0)
    parts = struct.pack("<8I", 0x70000080, info_at, 0, 0, len(info), len(info), 4, 4)
    parts += struct.pack("<8I", 1, image_at, 0, 0, len(image), len(image), 7, 16)
    sections = bytes(40) + struct.pack("<10I", 0, 9, 0, 0, entries_at, len(entries), 0, 0, 4, 8)
    return header + parts + info.ljust(image_at - info_at, b"\0") + image + entries + sections
