; main.exe: calls the routine of add.dll.
        group   FLAT
        extern  add_up

        segment CODE32 class=CODE use32 align=16 FLAT
..start:
        push    dword 2
        push    dword 40
        call    add_up
        add     esp, 8
        ret
