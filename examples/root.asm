; A module of maths.lib that nothing wants: it is not drawn, and so it is no matter that nobody defines what it calls.
        group   FLAT
        extern  nobody
        global  root

        segment CODE32 class=CODE use32 align=16 FLAT
root:   jmp     nobody
