; A module of maths.lib.
        group   FLAT
        global  square

        segment CODE32 class=CODE use32 align=16 FLAT
square: mov     eax, [esp + 4]
        imul    eax, eax
        ret
