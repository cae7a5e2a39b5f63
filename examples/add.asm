; add.dll: one routine, exported, and a table that points to it.
        group   FLAT
        global  add_up

        segment CODE32 class=CODE use32 align=16 FLAT
add_up: mov     eax, [esp + 4]
        add     eax, [esp + 8]
        add     [calls], dword 1
        ret

        segment DATA32 class=DATA use32 align=4 FLAT
calls:  dd      0
table:  dd      add_up
