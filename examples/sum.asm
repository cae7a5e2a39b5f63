; sum.dll: a routine of its own, beside a name that is handed on to add.dll.
        group   FLAT
        extern  add_up
        global  sum_of_three

        segment CODE32 class=CODE use32 align=16 FLAT
sum_of_three:
        push    dword [esp + 8]
        push    dword [esp + 8]
        call    add_up
        add     esp, 8
        push    eax
        push    dword [esp + 16]
        call    add_up
        add     esp, 8
        ret
