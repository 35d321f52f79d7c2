| The first word of the program, which each way in has, and a call of dos.library.
	.text
	.globl	_start, dos_call
| Entered with the loader's A0 and D0: start(a0, d0).
_start:
	movem.l	%d2-%d7/%a2-%a6, -(%sp)
	move.l	%d0, -(%sp)
	move.l	%a0, -(%sp)
	jsr	start
	addq.l	#8, %sp
	movem.l	(%sp)+, %d2-%d7/%a2-%a6
	rts
| dos_call(base, offset, d1, d2, d3)
dos_call:
	movem.l	%d2-%d7/%a2-%a6, -(%sp)
	move.l	48(%sp), %a6
	move.l	52(%sp), %a5
	add.l	%a6, %a5
	movem.l	56(%sp), %d1-%d3
	jsr	(%a5)
	movem.l	(%sp)+, %d2-%d7/%a2-%a6
	rts
