/* What each call of a program passes: its place and its text, which the log, the recorded file and the messages show. The calls of the C library that
 * a program may make are those of its own memory; printf and its kin go to the trace, and there `l` in a format means 32 bits, as on the Amiga. */
#ifndef EXECC_CALL_H
#define EXECC_CALL_H
#include <ctype.h>
#include <exec/exec.h>
#include <stdarg.h>
#include <stdio.h>
#include <stdlib.h>
#include <string.h>
#include <time.h>

struct execc_place {
    struct execc_place *outer;
    const char *file, *text;
    int line;
    const void *access;
};
extern struct execc_place *execc_here;
void execc_back(struct execc_place *);
#define EXECC_CALL(call, words)                                                                                                      \
    ({                                                                                                                               \
        struct execc_place execc_this __attribute__((cleanup(execc_back))) = {execc_here, __FILE__, words, __LINE__, 0};             \
        execc_here = &execc_this;                                                                                                    \
        call;                                                                                                                        \
    })

int execc_printf(const char *format, ...);
int execc_vprintf(const char *format, va_list values);
int execc_fprintf(FILE *to, const char *format, ...);
int execc_sprintf(char *to, const char *format, ...);
int execc_snprintf(char *to, size_t room, const char *format, ...);
int execc_vsprintf(char *to, const char *format, va_list values);
int execc_sscanf(const char *from, const char *format, ...);
int execc_puts(const char *text);
int execc_fputs(const char *text, FILE *to);
int execc_putchar(int c);
int execc_flush(FILE *to);
void execc_exit(int status);
void *execc_malloc(size_t size);
char *strdup(const char *text);

#ifndef EXECC_OWN
#define printf execc_printf
#define vprintf execc_vprintf
#define kprintf execc_printf
#define KPrintF execc_printf
#define fprintf execc_fprintf
#undef sprintf
#define sprintf execc_sprintf
#undef snprintf
#define snprintf execc_snprintf
#undef vsprintf
#define vsprintf execc_vsprintf
#define sscanf execc_sscanf
#define puts execc_puts
#define fputs execc_fputs
#undef putchar
#define putchar execc_putchar
#define fflush execc_flush
#define exit execc_exit
#define malloc execc_malloc
#define Exit execc_exit
#define stricmp strcasecmp
#define CopyMem(from, to, size) ((void)memmove(to, from, size))
#define CopyMemQuick(from, to, size) ((void)memmove(to, from, size))
#endif
#endif
