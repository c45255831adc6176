	.text
	.globl sink
	.type sink, @function
sink:	ret
	.size sink, .-sink
	.section .note.GNU-stack, "", @progbits
