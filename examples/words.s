	.file	"words.c"
	.intel_syntax noprefix
	.text
	.p2align 4
	.globl	count_words
	.type	count_words, @function
count_words:
	push	edi
	xor	edi, edi
	push	esi
	xor	esi, esi
	push	ebx
	mov	ebx, DWORD PTR [esp+16]
	add	DWORD PTR asked, 1
	movzx	ecx, BYTE PTR [ebx]
	test	cl, cl
	je	.L1
	.p2align 4,,10
	.p2align 3
.L2:
	mov	edx, OFFSET FLAT:blanks
	mov	eax, 32
	jmp	.L5
	.p2align 4,,10
	.p2align 3
.L17:
	movzx	eax, BYTE PTR [edx+1]
	add	edx, 1
	test	al, al
	je	.L16
.L5:
	cmp	cl, al
	jne	.L17
	xor	esi, esi
.L4:
	movzx	ecx, BYTE PTR [ebx+1]
	add	ebx, 1
	test	cl, cl
	jne	.L2
.L1:
	mov	eax, edi
	pop	ebx
	pop	esi
	pop	edi
	ret
	.p2align 4,,10
	.p2align 3
.L16:
	test	esi, esi
	jne	.L4
	add	edi, 1
	mov	esi, 1
	jmp	.L4
	.size	count_words, .-count_words
	.section	.rodata.str1.1,"aMS",@progbits,1
.LC0:
	.string	"many"
	.text
	.p2align 4
	.globl	size_name
	.type	size_name, @function
size_name:
	mov	edx, DWORD PTR [esp+4]
	mov	eax, OFFSET FLAT:.LC0
	cmp	edx, 5
	ja	.L18
	mov	eax, DWORD PTR CSWTCH.4[0+edx*4]
.L18:
	ret
	.size	size_name, .-size_name
	.section	.rodata.str1.1
.LC1:
	.string	"none"
.LC2:
	.string	"one"
.LC3:
	.string	"a pair"
.LC4:
	.string	"three"
.LC5:
	.string	"four"
.LC6:
	.string	"a hand full"
	.section	.rodata
	.align 4
	.type	CSWTCH.4, @object
	.size	CSWTCH.4, 24
CSWTCH.4:
	.long	.LC1
	.long	.LC2
	.long	.LC3
	.long	.LC4
	.long	.LC5
	.long	.LC6
	.globl	asked
	.bss
	.align 4
	.type	asked, @object
	.size	asked, 4
asked:
	.zero	4
	.section	.rodata
	.align 4
	.type	blanks, @object
	.size	blanks, 5
blanks:
	.string	" \t\r\n"
	.ident	"GCC: (Debian 12.2.0-14+deb12u1) 12.2.0"
	.section	.note.GNU-stack,"",@progbits
