| The places where C enters Exec, and Exec enters C.
	.text
	.globl	exec_call, softint_entry, server_entry, launch_entry, task_entry, task_exit
| exec_call(offset, d0, d1, a0, a1, a2, a3)
exec_call:
	movem.l	%d2-%d7/%a2-%a6, -(%sp)
	move.l	4.w, %a6
	move.l	48(%sp), %a5
	add.l	%a6, %a5
	move.l	52(%sp), %d0
	move.l	56(%sp), %d1
	movem.l	60(%sp), %a0-%a3
	jsr	(%a5)
	movem.l	(%sp)+, %d2-%d7/%a2-%a6
	rts
| A software interrupt: its data is in A1.
softint_entry:
	movem.l	%d2-%d7/%a2-%a6, -(%sp)
	move.l	%a1, -(%sp)
	jsr	on_softint
	addq.l	#4, %sp
	movem.l	(%sp)+, %d2-%d7/%a2-%a6
	moveq	#0, %d0
	rts
| A server: Z is set if the chain goes on.
server_entry:
	movem.l	%d2-%d7/%a2-%a6, -(%sp)
	move.l	%a1, -(%sp)
	jsr	on_server
	addq.l	#4, %sp
	movem.l	(%sp)+, %d2-%d7/%a2-%a6
	tst.l	%d0
	rts
| tc_Launch: a task begins to run. All registers are the task's.
launch_entry:
	movem.l	%d0-%d7/%a0-%a6, -(%sp)
	jsr	on_launch
	movem.l	(%sp)+, %d0-%d7/%a0-%a6
	rts
| A task's first and last address.
task_entry:
	jsr	task_main
task_exit:
	bra	task_exit
