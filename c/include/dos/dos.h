/* The break signals and return codes; nothing else of dos.library is here. */
#ifndef DOS_DOS_H
#define DOS_DOS_H
#include <exec/types.h>
#define SIGBREAKB_CTRL_C 12
#define SIGBREAKB_CTRL_D 13
#define SIGBREAKB_CTRL_E 14
#define SIGBREAKB_CTRL_F 15
#define SIGBREAKF_CTRL_C (1L << 12)
#define SIGBREAKF_CTRL_D (1L << 13)
#define SIGBREAKF_CTRL_E (1L << 14)
#define SIGBREAKF_CTRL_F (1L << 15)
#define RETURN_OK 0
#define RETURN_WARN 5
#define RETURN_ERROR 10
#define RETURN_FAIL 20
#endif
