; powers.exe: calls a routine that stands in a library of object modules.
        group   FLAT
        extern  cube

        segment CODE32 class=CODE use32 align=16 FLAT
..start:
        push    dword 3
        call    cube
        add     esp, 4
        ret
