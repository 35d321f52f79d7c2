/* Interrupt servers and software interrupts in C. The body of one in a machine file has no jumps and is the same in
 * each serving, so its code has to make the same calls in each. The machine runs a body whole; the code is run beside
 * its lines, call by call, and gets their answers. */
#include "execc.h"

Interrupt interrupts[MOST_INTERRUPTS];
int interrupt_count, active = -1, served[3];

Interrupt *interrupt_named(const char *name) {
    for (int i = 0; i < interrupt_count; i++)
        if (!strcmp(interrupts[i].name, name)) return &interrupts[i];
    return 0;
}

static Interrupt *interrupt_of(struct Interrupt *host, int kind, int source) {
    for (int i = 0; i < interrupt_count; i++)
        if (interrupts[i].host == host && interrupts[i].kind == kind && !interrupts[i].is_removed)
            return &interrupts[i];
    int same = 0, pri = host->is_Node.ln_Pri;
    for (int i = 0; i < interrupt_count; i++) same += interrupts[i].kind == kind;
    if (same == MOST_INTERRUPTS || interrupt_count == MOST_INTERRUPTS)
        refuse("a machine has at most 32 interrupts; use fewer");
    if (kind == SOFTINT && pri % 16)
        refuse("the priority %d of a software interrupt is none of -32, -16, 0, 16, 32; fill in is_Node.ln_Pri", pri);
    if (kind == SOFTINT && (pri < -32 || pri > 32))
        refuse("the priority %d of a software interrupt is not from -32 to 32", pri);
    if (!host->is_Code) refuse("the interrupt has no code; fill in is_Code");
    Interrupt *it = &interrupts[interrupt_count];
    *it = (Interrupt){.host = host, .kind = kind, .source = source, .pri = pri};
    free_name(it->name, name_of(host->is_Node.ln_Name ? host->is_Node.ln_Name : "interrupt", "interrupt"));
    interrupt_count++;
    machine_changed();
    return it;
}

const char *softint_name(struct Interrupt *host) {
    if (!host) refuse("there is no software interrupt; fill in mp_SoftInt");
    return interrupt_of(host, SOFTINT, 0)->name;
}
void Cause(struct Interrupt *host) { issue("Cause \"%s\"", softint_name(host)); }

void AddIntServer(ULONG number, struct Interrupt *host) {
    static const char *names[] = {"PORTS", "VERTB", "EXTER"};
    int source = number == 3 ? 0 : number == 5 ? 1 : number == 13 ? 2 : -1;
    if (source < 0) refuse("there are servers of INTB_PORTS, INTB_VERTB and INTB_EXTER alone");
    if (served[source])
        refuse("%s was served before this, and a machine file has its servers from the start; add the server before "
               "the first %s",
               names[source], source == 1 ? "tick" : "request");
    interrupt_of(host, SERVER, source);
}
void RemIntServer(ULONG number, struct Interrupt *host) {
    (void)number;
    for (int i = 0; i < interrupt_count; i++)
        if (interrupts[i].host == host && interrupts[i].kind == SERVER && !interrupts[i].is_removed) {
            interrupts[i].is_removed = 1;
            return;
        }
    refuse("the server is not there; AddIntServer adds it");
}

static void run_interrupt(int number) {
    struct Interrupt *host = interrupts[number].host;
    ((void (*)(void *))host->is_Code)(host->is_Data);
    for (;;) fiber_stop(&interrupts[number].fiber);
}

/* Looks at the next call of the code, beside those of its first serving. Whether the machine has to be opened anew,
 * with one more line. */
static int compare(Interrupt *it) {
    static const char varies[] = "interrupt \"%s\" has made other calls than in its first serving, %s %s at %s:%d, and "
                                 "a machine file has one body for all "
                                 "servings; make the same calls in each, and let a task decide";
    Line next = it->next;
    int is_known = it->at < it->lines.count;
    serving = -1;
    if (!next.text) {
        active = -1;
        if (is_known)
            refuse(varies, it->name, "without", it->lines.line[it->at].call, it->lines.line[it->at].file,
                   it->lines.line[it->at].line);
        it->is_whole = 1;
        return 0;
    }
    if (is_known ? strcmp(it->lines.line[it->at].text, next.text) != 0 : it->is_whole)
        refuse(varies, it->name, "as", next.call, next.file, next.line);
    if (is_known) return 0;
    if (it->lines.count == MOST_LINES) refuse("interrupt \"%s\" makes more than 1,024 calls", it->name);
    add_line(&it->lines, next);
    machine_changed();
    return 1;
}

/* The machine runs the body of an interrupt: its code runs up to its first call. */
int interrupt_begins(const char *name) {
    Interrupt *it = interrupt_named(name);
    active = it - interrupts;
    if (it->is_removed)
        refuse("interrupt \"%s\" was removed, and its source is served again; a machine file has its servers to the "
               "end: remove it after the last tick",
               name);
    it->at = 0;
    it->next = (Line){0};
    serving = active;
    fiber_make(&it->fiber, run_interrupt, active);
    return compare(it);
}

/* The machine has done a call of the body: its code gets the answer, and runs up to its next one. */
int interrupt_goes_on(ULONG answer) {
    Interrupt *it = &interrupts[active];
    it->at++;
    it->answer = answer;
    it->next = (Line){0};
    serving = active;
    fiber_run(&it->fiber);
    return compare(it);
}
