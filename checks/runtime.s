# The runtime as GNU as takes it: the start of a program, and the two functions that C units use without defining them.
# It calls Linux by int $0x80. A C function gets its arguments on the stack, answers in eax, and keeps ebx.

	.text
	.globl	_start, getbyte, putbyte

# Ends with the number that main returns.
_start:
	call	main
	movl	%eax, %ebx
	movl	$1, %eax
	int	$0x80

# int getbyte(void): the next byte of the input, or -1 at its end.
getbyte:
	pushl	%ebx
	pushl	$0
	movl	$3, %eax
	movl	$0, %ebx
	movl	%esp, %ecx
	movl	$1, %edx
	int	$0x80
	popl	%ecx
	popl	%ebx
	cmpl	$1, %eax
	movl	$-1, %eax
	jne	1f
	movzbl	%cl, %eax
1:	ret

# void putbyte(int): its lowest byte goes to the output.
putbyte:
	pushl	%ebx
	movl	$4, %eax
	movl	$1, %ebx
	leal	8(%esp), %ecx
	movl	$1, %edx
	int	$0x80
	popl	%ebx
	ret

	.section .note.GNU-stack, "", @progbits
