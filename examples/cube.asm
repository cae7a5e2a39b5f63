; A module of maths.lib. It wants a name that another module of the library has, so both are drawn.
        group   FLAT
        extern  square
        global  cube

        segment CODE32 class=CODE use32 align=16 FLAT
cube:   push    dword [esp + 4]
        call    square
        add     esp, 4
        imul    eax, [esp + 4]
        ret
