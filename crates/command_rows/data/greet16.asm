; A 16-bit program that writes a line: segments in a group, a far call of an imported entry point, a far pointer to
; data, and a start address. `nasm -f obj greet16.asm`
        group   DGROUP data stack
        import  DosWrite DOSCALLS 138
        extern  DosWrite

        segment code class=CODE use16
..start:
        mov     ax, DGROUP
        mov     ds, ax
        push    word 1
        push    ds
        push    word text
        push    word length
        push    ds
        push    word written
        call    far DosWrite
        les     di, [pointer]
        ret

        segment data class=DATA use16
text:   db      'Greetings', 13, 10
length  equ     $ - text
written dw      0
pointer dd      text            ; filled in below as offset and selector
        dw      seg text

        segment stack class=STACK stack use16
        resb    512
