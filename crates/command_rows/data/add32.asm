; A 32-bit library routine with debug data: a public, a near call of an external, a communal, an export and a reference
; in the flat group. `nasm -f obj -g -F borland add32.asm`
        group   FLAT
        extern  report
        common  total 4:near
        global  add_up
        export  add_up

        segment CODE32 class=CODE use32 align=16 FLAT
add_up: mov     eax, [esp + 4]
        add     eax, [total]
        mov     [total], eax
        call    report
        ret

        segment DATA32 class=DATA use32 align=4 FLAT
table:  dd      add_up, table
        times   3 dw 0x1234
