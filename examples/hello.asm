; hello.exe: writes a line and ends, by two entries of DOSCALLS.
        group   FLAT
        extern  DosWrite
        extern  DosExit

        segment CODE32 class=CODE use32 align=16 FLAT
..start:
        push    dword written           ; where the count goes
        push    dword length
        push    dword text
        push    dword 1                 ; standard output
        call    DosWrite
        add     esp, 16
        push    dword 0                 ; the status
        push    dword 1                 ; the whole process ends
        call    DosExit

        segment DATA32 class=DATA use32 align=4 FLAT
text:   db      "Hello from LX", 13, 10
length  equ     $ - text
        align   4
written: dd     0
