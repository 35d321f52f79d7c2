/* The program's words: printf and its kin, in which `l` means nothing, since a LONG has 32 bits. A line is shown when
 * it ends, after '> '. */
#include "execc.h"
#include <stdlib.h>

static char line[4096];
static size_t length;

/* What of a format is one value: its conversion, as the host's printf takes it. */
static int write_value(char *to, size_t room, const char *spec, char kind, va_list *values) {
    int stars[2] = {0, 0}, count = 0;
    for (const char *c = spec; *c; c++)
        if (*c == '*' && count < 2) stars[count++] = va_arg(*values, int);
#define WRITE(value) \
    (count == 0   ? snprintf(to, room, spec, value) \
     : count == 1 ? snprintf(to, room, spec, stars[0], value) \
                  : snprintf(to, room, spec, stars[0], stars[1], value))
    if (strchr("diouxXc", kind)) return WRITE(va_arg(*values, int));
    if (kind == 's') {
        const char *text = va_arg(*values, const char *);
        return WRITE(text ? text : "(null)");
    }
    if (kind == 'p') return snprintf(to, room, "%08x", (unsigned)(uintptr_t)va_arg(*values, void *));
    if (strchr("eEfFgG", kind)) return WRITE(va_arg(*values, double));
#undef WRITE
    return snprintf(to, room, "%c", kind);
}

/* A text of a format and values; its whole length, as vsnprintf has it. */
static int write_all(char *to, size_t room, const char *format, va_list given) {
    size_t n = 0;
    va_list values;
    va_copy(values, given);
    for (const char *c = format; *c; c++) {
        char spec[32] = "%", one[1024] = "";
        int k = 1, size = 1;
        const char *text = c;
        char *longer = 0;
        if (*c == '%') {
            for (c++; *c && strchr("-+ #0123456789.*", *c) && k < 24; c++) spec[k++] = *c;
            while (*c == 'l' || *c == 'h') c++;
            if (!*c) break;
            spec[k] = *c;
            va_list again;
            va_copy(again, values);
            size = write_value(one, sizeof one, spec, *c, &values);
            if (size >= (int)sizeof one && (longer = malloc(size + 1))) write_value(longer, size + 1, spec, *c, &again);
            va_end(again);
            text = longer ? longer : one;
        }
        for (int i = 0; i < size; i++, n++)
            if (n + 1 < room) to[n] = text[i];
        free(longer);
    }
    if (room) to[n < room ? n : room - 1] = 0;
    va_end(values);
    return n;
}

static void show_line(void) {
    show("> ", 2);
    show(line, length);
    show("\n", 1);
    length = 0;
}

/* A line that did not end, at the end of the run. */
void show_rest(void) {
    if (length) show_line();
}

static void print_text(const char *text) {
    for (; *text; text++) {
        if (*text == '\n' || length == sizeof line) show_line();
        if (*text != '\n' && *text != '\f' && *text != '\r') line[length++] = *text;
    }
}

int execc_vprintf(const char *format, va_list values) {
    int n = write_all(0, 0, format, values);
    char *text = malloc(n + 1);
    if (!text) stop(FAILED, "out of memory");
    write_all(text, n + 1, format, values);
    print_text(text);
    free(text);
    return n;
}

#define WITH_VALUES(made) \
    va_list values; \
    va_start(values, format); \
    int made_length = made; \
    va_end(values); \
    return made_length;
int execc_printf(const char *format, ...) { WITH_VALUES(execc_vprintf(format, values)) }
int execc_fprintf(FILE *to, const char *format, ...) {
    (void)to;
    WITH_VALUES(execc_vprintf(format, values))
}
int execc_vsprintf(char *to, const char *format, va_list values) { return write_all(to, 1 << 20, format, values); }
int execc_sprintf(char *to, const char *format, ...) { WITH_VALUES(write_all(to, 1 << 20, format, values)) }
int execc_snprintf(char *to, size_t room, const char *format, ...) { WITH_VALUES(write_all(to, room, format, values)) }

/* The host's, with a format that has no `l` before a whole number. */
int execc_sscanf(const char *from, const char *format, ...) {
    char plain[512];
    size_t n = 0;
    for (; *format && n + 1 < sizeof plain; format++)
        if (*format != 'l' || !format[1] || !strchr("diouxXn", format[1])) plain[n++] = *format;
    plain[n] = 0;
    WITH_VALUES(vsscanf(from, plain, values))
}

int execc_puts(const char *text) { return execc_printf("%s\n", text); }
int execc_fputs(const char *text, FILE *to) { return execc_fprintf(to, "%s", text); }
int execc_putchar(int c) {
    execc_printf("%c", c);
    return c;
}
int execc_flush(FILE *to) {
    (void)to;
    return 0;
}
