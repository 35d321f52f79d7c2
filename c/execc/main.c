/* The command line of a compiled program, its rounds of runs, and what is written of them. The script execc calls it.
 */
#include "execc.h"
#include <malloc.h>
#include <stdlib.h>
#include <sys/mman.h>
#include <sys/wait.h>
#include <unistd.h>

static struct {
    const char *names, *events, *record, *shows, *number;
    int is_twice, extra, jobs, accesses;
    long wanted;
    char kinds[4];
    const char *of;
} asked = {.names = "program", .extra = -1, .jobs = 1, .accesses = 1, .of = ""};
static char *frame;
static size_t frame_count;

static long number_of(const char *option, const char *text, long least, long most) {
    char *end;
    long number = text && isdigit((UBYTE)*text) ? strtol(text, &end, 10) : -1;
    if (number < least || number > most || *end)
        stop(BAD_WORDS, "%s is to be a number from %ld to %ld", option, least, most);
    return number;
}

static void read_kinds(const char *list) {
    static const char *words[] = {"tick", "PORTS", "EXTER"};
    asked.of = list;
    for (const char *at = list; *at; at += strcspn(at, ","), at += *at == ',') {
        size_t n = strcspn(at, ",");
        int kind = 0;
        while (kind < 3 && (strlen(words[kind]) != n || strncmp(words[kind], at, n))) kind++;
        char one[2] = {kind + TICK, 0};
        if (kind == 3 || strchr(asked.kinds, kind + TICK))
            stop(BAD_WORDS, "--of is to have tick, PORTS and EXTER, each at most once, with commas between");
        strcat(asked.kinds, one);
    }
}

static void read_words(int count, char **words) {
    for (int i = 1; i < count; i++) {
        const char *word = words[i], *value = i + 1 < count ? words[i + 1] : 0;
        int has_value = 1;
        if (!strcmp(word, "--names")) asked.names = value;
        else if (!strcmp(word, "--events-from")) asked.events = value;
        else if (!strcmp(word, "--record")) asked.record = value;
        else if (!strcmp(word, "--explore")) asked.extra = number_of(word, value, 0, 8);
        else if (!strcmp(word, "--events")) asked.wanted = number_of(word, value, 1, 1000000);
        else if (!strcmp(word, "--jobs")) asked.jobs = number_of(word, value, 1, 256);
        else if (!strcmp(word, "--quantum")) quantum = number_of(word, value, 1, 255);
        else if (!strcmp(word, "--of") && value) read_kinds(value);
        else if (!strcmp(word, "--accesses") && value) asked.accesses = strcmp(value, "none") != 0;
        else if (!strcmp(word, "--state"))
            asked.shows = "state", number_of(word, value, 0, 2000000), asked.number = value;
        else {
            has_value = 0;
            if (!strcmp(word, "--twice")) asked.is_twice = 1;
            else if (!strcmp(word, "--check") || !strcmp(word, "--log") || !strcmp(word, "--svg"))
                asked.shows = word + 2;
            else stop(BAD_WORDS, "there is no option %s; execc --help lists them", word);
        }
        if (has_value && !value) stop(BAD_WORDS, "%s needs a value", word);
        i += has_value;
    }
}

static int has_servers(void) {
    for (int i = 0; i < interrupt_count; i++)
        if (interrupts[i].kind == SERVER && !interrupts[i].is_removed) return 1;
    return 0;
}

/* Events where none are given: steps until the machine is idle; then, while a request is in progress, a tick; and ten
 * ticks if there are servers. Whether the run goes on after as many as are made. */
enum { MOST_MADE = 100000 };
static int make_events(void) {
    for (int made = 0, ticks = 0; !is_stopped && made < MOST_MADE; made++) {
        if (machine_running() >= 0) act(STEP);
        else if (in_progress > 0 || (has_servers() && ticks++ < 10)) {
            act(TICK);
            if (machine_running() < 0) act(STEP);
        } else return 0;
    }
    return !is_stopped;
}

static void write_text(const char *path, const char *text) {
    FILE *to = fopen(path, "w");
    int is_written = to && fputs(text, to) >= 0;
    if (!to || fclose(to) || !is_written) stop(FAILED, "%s cannot be written", path);
}

/* A sentence about a task or an interrupt, at the call that it makes. */
static void say_of(const Line *line, int task, int interrupt, const char *text) {
    if (!line->file) return;
    struct execc_place here = {0, line->file, line->call, line->line, 0};
    execc_here = &here;
    current = task, serving = interrupt;
    say("%s", text);
    current = serving = -1;
    execc_here = 0;
}

/* What is said of the end of a run: what an alert was at, or who waits. */
static void say_end(void) {
    static const char alert[] = "an alert ends the run; the last line of the trace says which";
    Interrupt *it = is_stopped ? interrupt_named(alerted) : 0;
    if (it && it->at < it->lines.count) say_of(&it->lines.line[it->at], -1, it - interrupts, alert);
    for (int i = 0; i < task_count; i++) {
        View view;
        machine_view(i, &view);
        if (view.place >= tasks[i].lines.count) continue;
        Line *line = &tasks[i].lines.line[view.place];
        if (is_stopped && !strcmp(tasks[i].name, alerted)) say_of(line, i, -1, alert);
        if (!is_stopped && (view.state == 3 || view.state == 4)) say_of(line, i, -1, "it waits at the end of the run");
    }
}

static void keep_record(void) {
    char path[4096];
    if (!machine_record(asked.record)) stop(FAILED, "%s cannot be written", asked.record);
    if (asked.events) return;
    snprintf(path, sizeof path, "%s.events", asked.record);
    write_text(path, machine_events());
}

/* Says of a run that no machine file can have why that is so; the status if a file is needed. */
static int say_too_long(void) {
    if (too_long < 0) return 0;
    accesses_name();
    say_of(&tasks[too_long].lines.line[MOST_LINES], too_long, -1,
           "this is call 1,025 of the task, and a machine file has at most 1,024 lines of a task: the run is not "
           "recorded; make fewer calls, or share them out among tasks");
    return REFUSED;
}

/* One run, in a process of its own; its status. */
static int run(void) {
    int goes_on = 0;
    if (asked.events)
        for (size_t i = 0; i < frame_count && !is_stopped; i++) act(frame[i]);
    else goes_on = make_events();
    show_rest();
    if (asked.shows) shown_length = 0;
    flush();
    if (goes_on) say("the run goes on; %d events are made at most, so give an event text for more", MOST_MADE);
    if (say_too_long()) {
        if (asked.record || asked.shows) return REFUSED;
    } else {
        if (asked.record) keep_record();
        if (asked.shows) return machine_shows(asked.shows, asked.number, asked.names);
        const char *differs = machine_differs(asked.record != 0);
        if (differs) stop(FAILED, "%s; please report this", differs);
    }
    say_end();
    return is_stopped ? FOUND : 0;
}

static void begin(void) {
    mallopt(M_MMAP_MAX, 0); /* so memory of the C library lies below 4 GB too */
    mallopt(M_TOP_PAD, 1 << 18);
    mallopt(M_TRIM_THRESHOLD, 1 << 30);
    if (mmap((void *)(uintptr_t)BASE, SIZE, PROT_READ | PROT_WRITE, MAP_PRIVATE | MAP_ANONYMOUS | MAP_FIXED_NOREPLACE,
             -1, 0) == MAP_FAILED)
        stop(FAILED, "the memory of the machine is not free");
    if (getenv("EXECC_FILL")) fresh = atoi(getenv("EXECC_FILL"));
    watch_faults();
    for (int i = 0; execc_programs[i].name; i++) {
        struct Task *host = calloc(1, sizeof *host);
        host->tc_Node.ln_Name = (char *)execc_programs[i].name;
        task_add(host, execc_programs[i].name, 0, 0, 1);
    }
    machine_open();
}

/* Runs rounds, each in new processes, until no new word is found that tasks share; the status of the last one. With a
 * file they only make its events. */
static int run_rounds(int *rounds, const char *made) {
    int shares = asked.extra >= 0 && !made ? asked.jobs : 1;
    for (*rounds = 1;; ++*rounds) {
        int status = 0, is_again = 0;
        if (asked.extra >= 0) explore_begin();
        fflush(stdout);
        for (int i = 0; i < shares; i++) {
            pid_t child = fork();
            if (child < 0) stop(FAILED, "no process can be begun");
            if (child) continue;
            is_quiet = asked.extra >= 0;
            begin();
            if (made) {
                make_events();
                write_text(made, machine_events());
                _exit(0);
            }
            if (is_quiet) explore_share(frame, frame_count, asked.extra, asked.kinds, i, shares);
            _exit(run());
        }
        for (int i = 0; i < shares; i++) {
            int ended = 0;
            while (wait(&ended) < 0) {}
            int one = WIFEXITED(ended) ? WEXITSTATUS(ended) : FAILED;
            if (one == AGAIN) is_again = 1;
            else if (one) status = one;
        }
        if (!is_again) return status;
    }
}

/* Runs the program in two processes that have other addresses, environment and fill of fresh memory; whether they did
 * the same, or where not. */
static int is_same_twice(void) {
    char *text[2] = {0, 0};
    size_t length[2] = {0, 0};
    for (int i = 0; i < 2; i++) {
        char path[] = "/tmp/execc-XXXXXX", events[40];
        int to = mkstemp(path);
        if (to < 0) stop(FAILED, "no temporary file can be written");
        snprintf(events, sizeof events, "%s.events", path);
        pid_t child = fork();
        if (!child) {
            dup2(to, 1);
            if (!freopen("/dev/null", "w", stderr)) _exit(FAILED);
            setenv("EXECC_FILL", i ? "170" : "85", 1);
            setenv("EXECC_MORE", i ? "a variable of the environment that moves what comes after it by some bytes" : "",
                   1);
            char *words[] = {self,
                             "--accesses",
                             asked.accesses ? "shared" : "none",
                             "--log",
                             asked.events ? "--events-from" : 0,
                             (char *)asked.events,
                             0};
            execv(self, words);
            _exit(FAILED);
        }
        while (waitpid(child, 0, 0) < 0) {}
        FILE *from = fopen(path, "r");
        char one[4096];
        FILE *all = open_memstream(&text[i], &length[i]);
        for (size_t n; from && (n = fread(one, 1, sizeof one, from)) > 0;) fwrite(one, 1, n, all);
        fclose(all);
        if (from) fclose(from);
        close(to);
        unlink(path);
    }
    if (length[0] == length[1] && !memcmp(text[0], text[1], length[0])) return 1;
    char *a = text[0], *b = text[1];
    while (*a && *b) {
        size_t n = strcspn(a, "\n"), m = strcspn(b, "\n");
        if (n != m || strncmp(a, b, n)) break;
        a += n + (a[n] == '\n'), b += m + (b[m] == '\n');
    }
    say("the program does not do the same twice: it uses memory that it did not fill in, or an address as a number; "
        "first here:");
    say("  %.*s", (int)strcspn(a, "\n"), *a ? a : "(the end)");
    say("  %.*s", (int)strcspn(b, "\n"), *b ? b : "(the end)");
    return 0;
}

/* The events of a search if none are given: those that a run makes. */
static void make_frame(void) {
    char path[] = "/tmp/execc-XXXXXX";
    int to = mkstemp(path), rounds;
    if (to < 0) stop(FAILED, "no temporary file can be written");
    int status = run_rounds(&rounds, path);
    if (!status) machine_read_events(path, &frame, &frame_count);
    close(to);
    unlink(path);
    if (status) exit(status);
}

int main(int count, char **words) {
    int rounds;
    if (readlink("/proc/self/exe", self, sizeof self - 1) < 0) stop(FAILED, "there is no /proc");
    read_words(count, words);
    if (asked.events) machine_read_events(asked.events, &frame, &frame_count);
    accesses_begin(asked.accesses);
    need_memory(asked.record || asked.shows);
    if (asked.is_twice || asked.extra >= 0) {
        if (!is_same_twice()) return DIFFERS;
        if (asked.is_twice) return puts("the same twice") < 0;
    }
    if (asked.extra >= 0 && !*asked.kinds) read_kinds("tick");
    if (asked.extra >= 0 && !asked.events) make_frame();
    int status = run_rounds(&rounds, 0);
    if (asked.extra < 0 || status) return status;
    status = explore_report(frame, frame_count, asked.extra, asked.kinds, asked.of, asked.wanted, asked.names, rounds);
    if (fflush(stdout)) stop(FAILED, "the output cannot be written");
    return status;
}
