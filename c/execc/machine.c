/* The machine, which is fed each call of the program as a line; its file, its events, and what the library makes of
 * both. No other file here calls the library. */
#include "execc.h"
#include "execsim.h"
#include <stdlib.h>

static execsim_machine machine = EXECSIM_NO_MACHINE_YET;
static char *done; /* the actions that were done */
static size_t done_count, done_room;
static char *trace; /* the lines of the machine, as it printed them, and how many bytes of them were read */
static size_t trace_length, trace_room, trace_read;
static int is_changed;
static uint8_t *buffer;
static uint64_t buffer_room = 1 << 16;
static Line **places; /* what each line of the recorded file comes from */
static int places_count;
int quantum = 4;
char alerted[32]; /* the name of the task or interrupt whose call was an alert */

/* Some actions as an event text, with as few events as there can be. */
char *grouped(const char *kinds, size_t count, const char *between) {
    static const char *words[] = {"run", "tick", "irq PORTS", "irq EXTER"};
    char *text;
    size_t length;
    FILE *to = open_memstream(&text, &length);
    for (size_t i = 0, n; i < count; i += n) {
        for (n = 1; kinds[i] <= TICK && i + n < count && kinds[i + n] == kinds[i]; n++) {}
        fprintf(to, kinds[i] <= TICK ? "%s%s %zu" : "%s%s", i ? between : "", words[(int)kinds[i]], n);
    }
    fclose(to);
    return text;
}
char *machine_events(void) {
    char *text = grouped(done, done_count, "\n"), *ended = malloc(strlen(text) + 2);
    sprintf(ended, *text ? "%s\n" : "%s", text);
    free(text);
    return ended;
}

/* The events of a file, as actions; what is wrong with them if the library refuses them. */
int machine_read_events(const char *path, char **kinds, size_t *count) {
    static uint8_t text[EXECSIM_FILE_LIMIT + 1];
    static const char none[] = "[[task]]\nname = \"a\"\ncode = []\n";
    char said[100], word[8], what[12];
    uint64_t length = 0;
    FILE *from = fopen(path, "r");
    size_t size = from ? fread(text, 1, sizeof text, from) : 0;
    if (!from || ferror(from)) stop(FAILED, "%s: cannot be read", path);
    fclose(from);
    uint32_t status =
        execsim_check((const uint8_t *)none, sizeof none - 1, text, size, (uint8_t *)said, sizeof said, &length);
    if (status == EXECSIM_EVENTS_REFUSED || status == EXECSIM_TOO_LONG || size > EXECSIM_FILE_LIMIT) {
        /* what was found may be longer than the buffer: the run says whether the text is refused */
        uint8_t *out = malloc(length + 1);
        status = execsim_run((const uint8_t *)none, sizeof none - 1, text, size, out, length + 1, &length);
        if (status == EXECSIM_EVENTS_REFUSED || size > EXECSIM_FILE_LIMIT)
            stop(BAD_WORDS, "%s: %.*s; a line is 'run N', 'tick N', 'irq PORTS' or 'irq EXTER'", path, (int)length, out);
        free(out);
    }
    size_t room = 0;
    *kinds = 0, *count = 0;
    for (char *line = strtok((char *)text, "\n"); line; line = strtok(0, "\n")) {
        if (*line == '#' || sscanf(line, "%7s %11s", word, what) != 2) continue;
        int kind = *word == 'r'   ? STEP
                   : *word == 't' ? TICK
                   : *what == 'P' ? PORTS
                                  : EXTER,
            n = kind <= TICK ? atoi(what) : 1;
        if (*count + n > room && !(*kinds = realloc(*kinds, room = 2 * (*count + n)))) stop(FAILED, "out of memory");
        memset(*kinds + *count, kind, n);
        *count += n;
    }
    return 0;
}

/* The variable of the program that gets the object which a line makes, by a look at its source; or nothing. */
static int write_target(FILE *to, const Line *line, char names[32][20], int *names_count) {
    static const char *makers[] = {"CreateMsgPort", "CreateIORequest", "AllocMem", "FindPort", "NewSem", "NewMsg"};
    char source[512] = "", name[20] = "";
    const char *from = 0, *end;
    int maker = 0, n = 0;
    while (maker < 6 && strncmp(line->text, makers[maker], strlen(makers[maker]))) maker++;
    if (maker == 6 || !line->call) return 0;
    if (maker >= 4) { /* the object is an argument: its last one */
        from = strrchr(line->call, ',') ? strrchr(line->call, ',') : strchr(line->call, '(');
        from += strspn(from, ",( &*");
        end = from + strspn(from, "abcdefghijklmnopqrstuvwxyzABCDEFGHIJKLMNOPQRSTUVWXYZ0123456789_");
    } else {
        FILE *file = fopen(line->file, "r");
        for (int i = 0; file && i < line->line; i++)
            if (!fgets(source, sizeof source, file)) *source = 0;
        if (file) fclose(file);
        char call[40];
        snprintf(call, sizeof call, "%.*s", (int)strcspn(line->call, "("), line->call);
        end = strstr(source, call);
        while (end && end > source && (end[-1] == ' ' || end[-1] == ')' || end[-1] == '*')) { /* back over a cast */
            end--;
            if (*end == ')')
                while (end > source && *end != '(') end--;
        }
        if (!end || end == source || end[-1] != '=') return 0;
        for (end--; end > source && end[-1] == ' '; end--) {}
        for (from = end; from > source && (isalnum((UBYTE)from[-1]) || from[-1] == '_'); from--) {}
    }
    for (; from < end && n < 16; from++)
        if (isalpha((UBYTE)*from) || (n && (isdigit((UBYTE)*from) || *from == '_'))) name[n++] = tolower(*from);
    if (!n) return 0;
    int at = 0;
    while (at < *names_count && strcmp(names[at], name)) at++;
    if (at == 32) return 0;
    if (at == *names_count) strcpy(names[(*names_count)++], name);
    return fprintf(to, "%s = ", name);
}

static void write_lines(FILE *to, Lines *lines, int is_recorded, int *row, int is_task) {
    char names[32][20];
    int names_count = 0;
    fputs("code = [\n", to);
    for (int i = 0; i < lines->count; i++) {
        Line *line = &lines->line[i];
        fputs("  '", to);
        if (is_recorded && is_task) write_target(to, line, names, &names_count);
        fprintf(to, "%s',", line->text);
        if (is_recorded && line->file) {
            fprintf(to, " # %s:%d ", line->file, line->line);
            for (const char *c = line->call; *c; c++) fputc(*c < 32 || *c > 126 ? ' ' : *c, to);
        }
        fputc('\n', to);
        if (is_recorded) {
            places = realloc(places, (*row + 2) * sizeof *places);
            while (places_count <= *row) places[places_count++] = 0;
            places[*row] = line;
        }
        ++*row;
    }
    fputs("]\n", to);
    ++*row;
}

/* The machine file of what the program has called up to now; with what each line comes from if it is to be kept. */
static char *write_file(size_t *length, int is_recorded) {
    static const char *sources[] = {"PORTS", "VERTB", "EXTER"};
    char *text;
    int row = 9;
    FILE *to = open_memstream(&text, length);
    if (is_recorded) accesses_name();
    places_count = 0;
    fputs("# Recorded from a C program over one event text: it is that run alone. Over other events its tasks go on "
          "with the calls of that run.\n",
          to);
    fprintf(to, "version = 2\nquantum = %d\npool = %d\n\n[[region]]\nbase = %d\nsize = %d\n", quantum,
            memory_is_small() ? 64 : 1024, BASE, memory_is_small() ? SMALL : SIZE);
    for (int i = 0; i < interrupt_count; i++) {
        Interrupt *it = &interrupts[i];
        fprintf(to,
                it->kind ? "\n[[server]]\nname = \"%s\"\npri = %d\nsource = \"%s\"\n"
                         : "\n[[softint]]\nname = \"%s\"\npri = %d\n",
                it->name, it->pri, sources[it->source]);
        row += it->kind ? 6 : 5;
        write_lines(to, &it->lines, is_recorded, &row, 0);
    }
    for (int i = 0; i < task_count; i++) {
        fprintf(to, "\n[[task]]\nname = \"%s\"\npri = %d\nstart = %s\n", tasks[i].name, (int)tasks[i].pri,
                tasks[i].starts ? "true" : "false");
        row += 6;
        write_lines(to, &tasks[i].lines, is_recorded, &row, 1);
    }
    fclose(to);
    return text;
}

/* What the library answers: the run goes on after 0 and after an alert. */
static void check(uint32_t status, uint64_t length) {
    if (status == EXECSIM_NO_MEMORY) stop(FAILED, "out of memory");
    if (status != EXECSIM_RAN && status != EXECSIM_ALERTED)
        stop(FAILED, "the machine refuses what it was given: %.*s", (int)length, buffer);
}

/* Adds the lines that the machine has printed to the trace. */
static void take(void) {
    uint64_t length = 0;
    while (execsim_take(&machine, buffer, buffer_room, &length) == EXECSIM_TOO_LONG)
        if (!(buffer = realloc(buffer, buffer_room = 2 * length))) stop(FAILED, "out of memory");
    if (trace_length + length > trace_room && !(trace = realloc(trace, trace_room = 2 * (trace_length + length))))
        stop(FAILED, "out of memory");
    memcpy(trace + trace_length, buffer, length);
    trace_length += length;
}

/* Does one action with the machine as it is. */
static void do_action(int kind) {
    static const char *texts[] = {"run 1", "tick 1", "irq PORTS", "irq EXTER"};
    const char *text = texts[kind];
    uint64_t length = 0;
    check(execsim_events(&machine, (const uint8_t *)text, strlen(text), buffer, buffer_room, &length), length);
}

/* Opens the machine with all that the program has called, and does all actions again: it prints again what was read
 * before. That is done for a new interrupt and for a new line of an interrupt, which cannot be fed. */
static void open_anew(void) {
    size_t size;
    uint64_t length = 0;
    if (too_long >= 0)
        refuse("the machine is opened anew for an interrupt, and a task has made more than 1,024 calls before; add "
               "interrupts first");
    char *file = write_file(&size, 0), *events = machine_events();
    if (!buffer && !(buffer = malloc(buffer_room))) stop(FAILED, "out of memory");
    check(execsim_open(&machine, (uint8_t *)file, size, buffer, buffer_room, &length), length);
    check(execsim_events(&machine, (uint8_t *)events, strlen(events), buffer, buffer_room, &length), length);
    free(file);
    free(events);
    trace_length = 0;
    take();
    is_changed = 0;
}

/* Feeds the newest line of a task to the machine, unless it is to be opened anew. */
void machine_feed(int task) {
    const char *line = tasks[task].lines.line[tasks[task].lines.count - 1].text;
    uint32_t status = is_changed ? EXECSIM_RAN : execsim_feed(&machine, task, (const uint8_t *)line, strlen(line));
    if (status == EXECSIM_NO_MEMORY) stop(FAILED, "out of memory");
    if (status != EXECSIM_RAN) stop(FAILED, "the machine refuses the line '%s'; please report this", line);
}

/* Adds the newest task, which does not start with the machine, unless the machine is to be opened anew. */
void machine_add(int task) {
    uint64_t number = task;
    uint32_t status = is_changed || !machine.machine
                          ? EXECSIM_RAN
                          : execsim_add_task(&machine, (const uint8_t *)tasks[task].name, strlen(tasks[task].name),
                                             tasks[task].pri, &number);
    if (status == EXECSIM_NO_MEMORY) stop(FAILED, "out of memory");
    if (status != EXECSIM_RAN || number != (uint64_t)task)
        stop(FAILED, "the machine refuses the task '%s'; please report this", tasks[task].name);
}

/* The task that the next step finds at the end of its lines, or -1. */
int machine_at_end(void) {
    uint64_t task;
    return execsim_at_end(&machine, &task) || task == EXECSIM_NO_TASK ? -1 : (int)task;
}

/* Takes a word of a line, and answers what is behind it. */
static const char *take_word(const char *at, char *to, size_t room) {
    size_t n = strcspn(at, " "), kept = n < room ? n : room - 1;
    memcpy(to, at, kept);
    to[kept] = 0;
    return at + n + (at[n] == ' ');
}

static Said said_by(const char *line) {
    Said said = {0};
    const char *at = take_word(take_word(line, said.first, sizeof said.first), said.second, sizeof said.second);
    said.is_long = *at != 0;
    for (int i = 0; i < 2 && *at == '$'; i++, at += strcspn(at, " "), at += *at == ' ')
        said.address[i] = strtoul(at + 1, 0, 16);
    size_t length = strlen(line);
    said.waits = length > 6 && !strcmp(line + length - 6, " waits");
    const char *arrow = strstr(line, " -> $");
    said.has_answer = arrow != 0;
    if (arrow) said.answer = strtoul(arrow + 5, 0, 16);
    return said;
}

/* Reads a line of the trace. Whether the machine has to be opened anew, since an interrupt makes a call that its body
 * did not have. */
static int read_line(const char *line) {
    Said said = said_by(line);
    show(line, strlen(line));
    show("\n", 1);
    if (!strcmp(said.first, "alert")) {
        need_memory(strstr(line, "FreeMem") != 0);
        is_stopped = 1;
        sscanf(line, "alert %*s %31s", alerted);
        return 0;
    }
    Interrupt *it = said.is_long ? 0 : interrupt_named(said.second);
    if (it && !strcmp(said.first, it->kind ? "server" : "softint")) return interrupt_begins(said.second);
    if (!strcmp(said.first, "serve")) served[*said.second == 'P' ? 0 : *said.second == 'V' ? 1 : 2]++;
    trace_line(&said);
    if (active >= 0 && !strcmp(said.first, interrupts[active].name)) return interrupt_goes_on(said.answer);
    Task *task = said.has_answer ? task_named(said.first) : 0;
    if (task) task->answer = said.answer;
    return 0;
}

static int read_lines(void) {
    while (trace_read < trace_length) {
        char line[200];
        size_t length = (char *)memchr(trace + trace_read, '\n', trace_length - trace_read) - (trace + trace_read);
        memcpy(line, trace + trace_read, length);
        line[length] = 0;
        trace_read += length + 1;
        if (read_line(line)) return 1;
    }
    return 0;
}

void machine_changed(void) { is_changed = 1; }

void machine_open(void) {
    open_anew();
    read_lines();
}

/* One action: a step, a tick, or a request. */
void machine_act(int kind) {
    if (done_count == done_room && !(done = realloc(done, done_room = 2 * done_room + 64)))
        stop(FAILED, "out of memory");
    done[done_count++] = kind;
    if (is_changed) open_anew();
    else {
        do_action(kind);
        take();
    }
    while (read_lines()) open_anew();
}

int machine_running(void) {
    execsim_machine_view view;
    return execsim_view(&machine, &view) || view.running == EXECSIM_NO_TASK ? -1 : (int)view.running;
}

void machine_view(int task, View *view) {
    execsim_task_view it;
    *view = (View){0};
    if (execsim_task(&machine, task, &it) == EXECSIM_RAN)
        *view = (View){it.state,    it.received, it.allocated, it.waits_for,
                       it.priority, it.forbids,  it.disables,  (int)it.place};
}

ULONG machine_signal_of_port(ULONG address) {
    execsim_block_view view;
    return execsim_block(&machine, address, &view) ? 0 : view.signal;
}

/* Whether a request that was sent was replied at once. A line of the timer that is still to be read has finished it
 * otherwise. */
int machine_replied(ULONG address) {
    execsim_block_view view;
    char finished[24];
    snprintf(finished, sizeof finished, "timer $%08X\n", address);
    return !execsim_block(&machine, address, &view) && view.state == 3 &&
           !memmem(trace + trace_read, trace_length - trace_read, finished, strlen(finished));
}

/* What is seen of a request of timer.device. */
Request machine_request(ULONG address) {
    execsim_request_view it = {0};
    execsim_request(&machine, address, &it);
    return (Request){it.command, it.seconds, it.micros, it.quick, it.error};
}

/* Writes the machine file of the run. */
int machine_record(const char *path) {
    size_t size;
    char *file = write_file(&size, 1);
    FILE *to = fopen(path, "w");
    int is_written = to && fwrite(file, 1, size, to) == size;
    is_written = to && !fclose(to) && is_written;
    free(file);
    return is_written;
}

/* The file over the events is to be this run, as it is recorded or without what a reader alone sees. What differs, or
 * nothing. */
const char *machine_differs(int is_recorded) {
    size_t size;
    uint64_t length = 0;
    char *file = write_file(&size, is_recorded), *events = machine_events();
    uint8_t *out = malloc(trace_length + 1);
    uint32_t status = execsim_run((uint8_t *)file, size, (uint8_t *)events, strlen(events), out, trace_length, &length);
    int is_same =
        length == trace_length && !memcmp(out, trace, length) && status == (is_stopped ? EXECSIM_ALERTED : EXECSIM_RAN);
    return is_same                             ? 0
           : status == EXECSIM_MACHINE_REFUSED ? "the recorded file is refused"
                                               : "the run of the recorded file is another";
}

/* Shows a line of a report, with places of the recorded file as those of the program: of the first line of a finding that before it, and in the line
 * below it the call in place of the line of the code. */
static void show_line_in_c(const char *line) {
    static const Line *from;
    static const char of_code[] = " of its code";
    int row = 0, column = 0, at = 0;
    if (*line != ' ') from = 0;
    if (sscanf(line, "machine.toml:%d:%d: %n", &row, &column, &at) >= 2 && at && row < places_count && places[row] &&
        places[row]->file) {
        from = places[row];
        printf("%s:%d: %s\n", from->file, from->line, line + at);
        return;
    }
    const char *end = from && !strncmp(line, "    in ", 7) ? strstr(line, ", line ") : 0;
    const char *rest = end ? strstr(end, of_code) : 0;
    if (rest) printf("%.*s, %s%s\n", (int)(end - line), line, from->call, rest + strlen(of_code));
    else printf("%s\n", line);
}

/* A field of an object of JSON as `execlog --json` writes it: its text without the quotes, or its number. */
static int json_field(const char *line, const char *name, char *to, size_t room) {
    char key[24];
    snprintf(key, sizeof key, "\"%s\":", name);
    const char *from = strstr(line, key);
    size_t n = 0;
    if (!from) return 0;
    from += strlen(key);
    int is_text = *from == '"';
    for (from += is_text; *from && (is_text ? *from != '"' : *from != ',' && *from != '}') && n + 1 < room; from++) {
        if (*from == '\\' && from[1]) from++;
        to[n++] = *from;
    }
    to[n] = 0;
    return 1;
}

/* Where a line of the program is, as FILE:LINE; of a longer one the end alone. */
enum { LEAST_PLACE = 16, MOST_PLACE = 40 };
static const char *place_of(const Line *line) {
    static char text[4200];
    if (!line || !line->file) return "";
    int length = snprintf(text, sizeof text, "%s:%d", line->file, line->line);
    if (length <= MOST_PLACE || length >= (int)sizeof text) return text;
    char *end = text + length - MOST_PLACE;
    return memcpy(end, "..", 2);
}

/* How many cells the places of the program take in a log. */
static int places_width(void) {
    int width = LEAST_PLACE;
    for (int i = 0; i < places_count; i++) {
        int length = strlen(place_of(places[i]));
        if (length > width) width = length;
    }
    return width;
}

/* Shows an object of the log as a row: step, time, place in the program, line of the trace, call. */
static void show_row(const char *line, int width) {
    char step[20] = "", clock[24] = "0", row[12] = "", text[200] = "";
    json_field(line, "step", step, sizeof step);
    json_field(line, "clock_us", clock, sizeof clock);
    json_field(line, "trace", text, sizeof text);
    int at = json_field(line, "line", row, sizeof row) ? atoi(row) : 0;
    Line *from = at < places_count ? places[at] : 0;
    unsigned long long micros = strtoull(clock, 0, 10);
    int is_call = from && from->file, used = printf("%5s %6llu.%03llu  %*s  %-*s", step, micros / 1000, micros % 1000,
                                                    width, place_of(from), is_call ? 45 : 0, text);
    int left = 120 - used - 2, length = is_call ? (int)strlen(from->call) : 0;
    if (is_call && length <= left) printf("  %s", from->call);
    if (is_call && length > left && left > 2) printf("  %.*s..", left - 2, from->call);
    putchar('\n');
}

/* Shows a line of a picture, in which the file is called by the names of the programs. */
static void show_named(const char *line, const char *names) {
    for (const char *at; (at = strstr(line, "machine.toml")); line = at + 12) {
        fwrite(line, 1, at - line, stdout);
        for (const char *c = names; *c; c++) printf(*c == '<' ? "&lt;" : *c == '&' ? "&amp;" : "%c", *c);
    }
    puts(line);
}

typedef uint32_t Report(const uint8_t *, size_t, const uint8_t *, size_t, uint8_t *, size_t, uint64_t *);
static uint64_t state_step;
static Report check_report, log_report, svg_report, state_report;
#define REPORT(name, call) \
    static uint32_t name(const uint8_t *m, size_t n, const uint8_t *e, size_t k, uint8_t *out, size_t room, \
                         uint64_t *length) { \
        return call; \
    }
REPORT(check_report, execsim_check(m, n, e, k, out, room, length))
REPORT(log_report, execsim_log(m, n, e, k, 0, EXECSIM_LAST_STEP, 0, out, room, length))
REPORT(svg_report, execsim_picture(m, n, e, k, 0, EXECSIM_LAST_STEP, out, room, length))
REPORT(state_report, execsim_state(m, n, e, k, state_step, out, room, length))

/* What another command makes of the run, at the lines of the program; its status. */
int machine_shows(const char *what, const char *number, const char *names) {
    Report *report = !strcmp(what, "check") ? check_report
                     : !strcmp(what, "log") ? log_report
                     : !strcmp(what, "svg") ? svg_report
                                            : state_report;
    size_t size;
    uint64_t length = 0, room = 1 << 20;
    char *file = write_file(&size, 1), *events = machine_events();
    state_step = number ? strtoull(number, 0, 10) : 0;
    uint8_t *out = malloc(room + 1);
    uint32_t status;
    while ((status = report((uint8_t *)file, size, (uint8_t *)events, strlen(events), out, room, &length)) ==
           EXECSIM_TOO_LONG)
        if (!(out = realloc(out, (room = length) + 1))) stop(FAILED, "out of memory");
    if (status == EXECSIM_NO_MEMORY) stop(FAILED, "out of memory");
    if (status == EXECSIM_NOT_THERE) stop(BAD_WORDS, "%.*s", (int)length, out);
    int width = places_width(), is_of_name = 0, has_found = 0;
    if (report == log_report) printf(" step         ms  %*s  %-45s  call\n", width, "place", "trace");
    for (char *at = (char *)out, *end = at + length, *next; at < end; at = next + 1) {
        if (!(next = memchr(at, '\n', end - at))) next = end;
        *next = 0;
        if (report == log_report) show_row(at, width);
        else if (report == state_report && at == (char *)out && !strncmp(at, "machine.toml", 12))
            printf("%s%s\n", names, at + 12);
        else if (report == check_report) {
            /* a variable of a recorded file is a name alone, for a reader: that no line reads it says nothing of the program */
            if (*at != ' ') is_of_name = !!strstr(at, ": warning[unused-variable]: ");
            if (!is_of_name) show_line_in_c(at);
            has_found |= !is_of_name && (strstr(at, ": warning[") || strstr(at, ": error["));
        } else show_named(at, names);
    }
    if (fflush(stdout)) stop(FAILED, "the output cannot be written");
    return status == EXECSIM_ALERTED && (has_found || report != check_report) ? FOUND : 0;
}

/* How many ways the proved search has. */
unsigned long machine_ways(const char *actions, size_t count, int extra, const char *kinds) {
    static const char none[] = "[[task]]\nname = \"a\"\ncode = []\n";
    uint64_t length = 0;
    char *events = grouped(actions, count, "\n"), said[400] = "";
    uint32_t of = (strchr(kinds, TICK) ? EXECSIM_VERTB : 0) | (strchr(kinds, PORTS) ? EXECSIM_PORTS : 0) |
                  (strchr(kinds, EXTER) ? EXECSIM_EXTER : 0);
    execsim_explore((uint8_t *)none, sizeof none - 1, (uint8_t *)events, strlen(events), extra, of, EXECSIM_SEE_END, 0,
                    (uint8_t *)said, sizeof said - 1, &length);
    char *at = said;
    while (*at && !isdigit((UBYTE)*at)) at++;
    return strtoul(at, 0, 10);
}
