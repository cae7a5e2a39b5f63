; Made of words.s by gas_to_nasm.py.
        sectalign off
        group   FLAT
        segment CODE32 class=CODE use32 align=16 FLAT
        segment DATA32 class=DATA use32 align=16 FLAT
        segment CONST32 class=CONST use32 align=16 FLAT
        segment BSS32 class=BSS use32 align=16 FLAT

        segment CODE32

        segment CODE32
        align 16
        global count_words
count_words:
        push    edi
        xor     edi, edi
        push    esi
        xor     esi, esi
        push    ebx
        mov     ebx, dword [esp+16]
        add     dword [asked], 1
        movzx   ecx, byte [ebx]
        test    cl, cl
        je      ..@L1
        align 16
        align 8
..@L2:
        mov     edx, blanks
        mov     eax, 32
        jmp     ..@L5
        align 16
        align 8
..@L17:
        movzx   eax, byte [edx+1]
        add     edx, 1
        test    al, al
        je      ..@L16
..@L5:
        cmp     cl, al
        jne     ..@L17
        xor     esi, esi
..@L4:
        movzx   ecx, byte [ebx+1]
        add     ebx, 1
        test    cl, cl
        jne     ..@L2
..@L1:
        mov     eax, edi
        pop     ebx
        pop     esi
        pop     edi
        ret
        align 16
        align 8
..@L16:
        test    esi, esi
        jne     ..@L4
        add     edi, 1
        mov     esi, 1
        jmp     ..@L4

        segment CONST32
..@LC0:
        db 'many', 0

        segment CODE32
        align 16
        global size_name
size_name:
        mov     edx, dword [esp+4]
        mov     eax, ..@LC0
        cmp     edx, 5
        ja      ..@L18
        mov     eax, dword [CSWTCH.4+0+edx*4]
..@L18:
        ret

        segment CONST32
..@LC1:
        db 'none', 0
..@LC2:
        db 'one', 0
..@LC3:
        db 'a pair', 0
..@LC4:
        db 'three', 0
..@LC5:
        db 'four', 0
..@LC6:
        db 'a hand full', 0

        segment CONST32
        align 4
CSWTCH.4:
        dd ..@LC1
        dd ..@LC2
        dd ..@LC3
        dd ..@LC4
        dd ..@LC5
        dd ..@LC6
        global asked

        segment BSS32
        alignb 4
asked:
        resb 4

        segment CONST32
        align 4
blanks:
        db ' ', 9, 13, 10, 0
