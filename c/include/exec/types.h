/* The types of Exec. A pointer has 64 bits here and a ULONG 32; all that a program has lies below 4 GB, so that a pointer that is kept in a ULONG is good. */
#ifndef EXEC_TYPES_H
#define EXEC_TYPES_H
#include <stddef.h>
#include <stdint.h>
typedef uint32_t ULONG, BITS32, CPTR;
typedef int32_t LONG;
typedef uint16_t UWORD, USHORT, BITS16;
typedef int16_t WORD, SHORT, BOOL, COUNT;
typedef uint8_t UBYTE, UCHAR, BITS8;
typedef int8_t BYTE;
typedef void *APTR;
typedef char *STRPTR;
typedef const char *CONST_STRPTR;
typedef unsigned char TEXT;
typedef float FLOAT;
typedef double DOUBLE;
#define VOID void
#define GLOBAL extern
#define IMPORT extern
#define STATIC static
#define REGISTER register
#define CONST const
#define VOLATILE volatile
#ifndef TRUE
#define TRUE 1
#define FALSE 0
#endif
/* What compilers of the Amiga have, and what says nothing here. */
#define __saveds
#define __asm
#define __regargs
#define __stdargs
#define __interrupt
#define __chip
#define __far
#define __near
#define __aligned
#define __geta4
#define __d0
#define __d1
#define __a0
#define __a1
#define __a5
#define __a6
#endif
