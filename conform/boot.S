| A boot block: "DOS", its sum, the root block, and code. It is entered with trackdisk's open request in A1 and SysBase in A6. After it on the
| disk are the program (IMAGE bytes), and what comes after that: how many relocations there are, their offsets, and the compiled runs
| (REST bytes, of which RELOCATIONS are not the runs). All are read into one block of memory; the program has SPACE bytes of it.
	.text
_start:
	.ascii	"DOS\0"
	.long	0
	.long	880
	move.l	%a1, %a4
	move.l	#SPACE+REST, %d0
	moveq	#1, %d1			| MEMF_PUBLIC
	jsr	-198(%a6)		| AllocMem
	tst.l	%d0
	beq	no_memory
	move.l	%d0, %a3
	move.l	%a3, %a2
	add.l	#SPACE, %a2
	move.l	%a3, 40(%a4)		| io_Data
	move.l	#1024, 44(%a4)		| io_Offset
	move.l	#IMAGE, 36(%a4)		| io_Length
	bsr	read
	move.l	%a2, 40(%a4)
	move.l	#1024+IMAGE, 44(%a4)
	move.l	#REST, 36(%a4)
	bsr	read
	move.w	#9, 28(%a4)		| TD_MOTOR, off
	clr.l	36(%a4)
	move.l	%a4, %a1
	jsr	-456(%a6)		| DoIO
	move.l	%a3, %d1
	move.l	(%a2)+, %d0
	bra	2f
1:	move.l	(%a2)+, %d2
	add.l	%d1, 0(%a3, %d2.l)
2:	subq.l	#1, %d0
	bpl	1b
	jsr	-636(%a6)		| CacheClearU, of exec 37
	move.l	%a3, %a0
	add.l	#SPACE+RELOCATIONS, %a0
	jsr	(%a3)
3:	bra	3b
read:
	move.w	#2, 28(%a4)		| CMD_READ
	move.l	%a4, %a1
	jsr	-456(%a6)		| DoIO
	tst.b	%d0
	bne	no_disk
	rts
no_memory:
	lea	memory_text(%pc), %a0
	bra	4f
no_disk:
	lea	disk_text(%pc), %a0
4:	move.w	#8, 0xDFF032		| to the serial port
5:	move.b	(%a0)+, %d0
	beq	3b
6:	move.w	0xDFF018, %d1
	btst	#13, %d1
	beq	6b
	and.w	#0xFF, %d0
	or.w	#0x100, %d0
	move.w	%d0, 0xDFF030
	bra	5b
memory_text:
	.asciz	"\n@refused no memory for the program and its runs\n"
disk_text:
	.asciz	"\n@refused the disk cannot be read\n"
	.even
