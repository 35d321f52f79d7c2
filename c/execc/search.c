/* Every way in which more interrupts come among the actions of a run: the program itself runs in each, in a process of
 * its own that goes on from the beginning which they share. The report is as that of execexplore. */
#include "execc.h"
#include <stdlib.h>
#include <sys/mman.h>
#include <sys/wait.h>
#include <unistd.h>

enum { MOST_EXTRA = 8, MOST_OUTCOMES = 4096, MOST_TEXT = 4000 };
/* The interrupts that a way has more than the frame: before which of its actions, and of which kind. */
typedef struct {
    int count, place[MOST_EXTRA];
    char kind[MOST_EXTRA];
} Way;
typedef struct {
    unsigned long ways;
    Way first;
    char text[MOST_TEXT];
} Outcome;
static struct {
    int lock, count, is_full;
    unsigned long ways, alerts;
    Outcome of[MOST_OUTCOMES];
} * found; /* one for all processes */
static const char *frame, *kinds;
static size_t frame_count;
static int most, job, jobs;

static int is_before(const Way *a, const Way *b) {
    if (a->count != b->count) return a->count < b->count;
    for (int i = 0; i < a->count; i++) {
        if (a->place[i] != b->place[i]) return a->place[i] < b->place[i];
        if (a->kind[i] != b->kind[i]) return strchr(kinds, a->kind[i]) < strchr(kinds, b->kind[i]);
    }
    return 0;
}

/* What is seen of a way: the program's words, an alert or what was refused, who runs, and who waits where. */
static void write_end(FILE *to) {
    for (char *line = shown, *end = shown + shown_length, *next; line < end; line = next + 1) {
        next = memchr(line, '\n', end - line);
        if (*line == ' ') fprintf(to, "%.*s\n", (int)(next - line), line);
        else if (*line == '>' || !strncmp(line, "alert ", 6)) fprintf(to, "  %.*s\n", (int)(next - line), line);
    }
    if (is_stopped) return;
    int number = machine_running();
    if (number >= 0) fprintf(to, "  %s runs\n", tasks[number].name);
    for (int i = 0; i < task_count; i++) {
        View view;
        machine_view(i, &view);
        Line *line = view.place < tasks[i].lines.count ? &tasks[i].lines.line[view.place] : 0;
        if (line && line->call && (view.state == 3 || view.state == 4))
            fprintf(to, "  %s waits at %s:%d, %s\n", tasks[i].name, line->file, line->line, line->call);
    }
}

/* Adds so many ways, which all end as this one does, to the outcomes. */
static void note(const Way *way, unsigned long number) {
    char text[MOST_TEXT] = "";
    FILE *to = fmemopen(text, sizeof text - 1, "w");
    show_rest();
    write_end(to);
    fclose(to);
    while (__sync_lock_test_and_set(&found->lock, 1)) {}
    int at = 0;
    while (at < found->count && strcmp(found->of[at].text, text)) at++;
    if (at == MOST_OUTCOMES) found->is_full = 1;
    else {
        Outcome *outcome = &found->of[at];
        if (at == found->count) {
            found->count++;
            outcome->ways = 0;
            strcpy(outcome->text, text);
        }
        if (!outcome->ways || is_before(way, &outcome->first)) outcome->first = *way;
        outcome->ways += number;
        found->ways += number;
        if (strstr(text, "  alert ")) found->alerts += number;
    }
    __sync_lock_release(&found->lock);
}

/* How many ways have at most so many more among the last so many actions. */
static unsigned long ways_of(int extra, size_t places) {
    unsigned long all = 0, some = 1;
    for (int i = 0; i <= extra; i++) {
        all += some;
        some = some * (places + i + 1) / (i + 1) * strlen(kinds);
    }
    return all;
}

/* Runs the ways that have begun with `way` and have more from an action on. */
static void visit(size_t from, Way *way) {
    for (size_t i = from; i <= frame_count; i++) {
        if (is_stopped && way->count) {
            note(way, ways_of(most - way->count, frame_count - i));
            return;
        }
        for (const char *kind = kinds; *kind && way->count < most && (way->count || (int)(i % jobs) == job); kind++) {
            int status;
            pid_t child = fork();
            if (child < 0) stop(FAILED, "no process can be begun");
            if (!child) {
                way->place[way->count] = i;
                way->kind[way->count++] = *kind;
                act(*kind);
                visit(i, way);
                _exit(0);
            }
            if (waitpid(child, &status, 0) < 0 || !WIFEXITED(status)) _exit(FAILED);
            if (WEXITSTATUS(status)) _exit(WEXITSTATUS(status));
        }
        if (i < frame_count) act(frame[i]);
    }
    if (way->count || job == 0) note(way, 1);
}

static char *events_of(const Way *way, const char *between) {
    char *all = malloc(frame_count + MOST_EXTRA + 1);
    size_t n = 0;
    int k = 0;
    for (size_t i = 0; i <= frame_count; i++) {
        while (k < way->count && way->place[k] == (int)i) all[n++] = way->kind[k++];
        if (i < frame_count) all[n++] = frame[i];
    }
    return grouped(all, n, between);
}

static int by_way(const void *a, const void *b) {
    const Way *x = &((const Outcome *)a)->first, *y = &((const Outcome *)b)->first;
    return is_before(x, y) ? -1 : is_before(y, x);
}

/* Runs one share of the ways, in this process and its children. */
void explore_share(const char *actions, size_t count, int extra, const char *of, int share, int shares) {
    Way way = {0};
    frame = actions, frame_count = count, most = extra, kinds = of, job = share, jobs = shares;
    visit(0, &way);
    _exit(0);
}

void explore_begin(void) {
    if (!found) found = mmap(0, sizeof *found, PROT_READ | PROT_WRITE, MAP_SHARED | MAP_ANONYMOUS, -1, 0);
    if (found == MAP_FAILED) stop(FAILED, "out of memory");
    memset(found, 0, offsetof(__typeof__(*found), of));
}

/* The report, or the events of the first way of an outcome; the status. */
int explore_report(const char *actions, size_t count, int extra, const char *of, const char *of_names, long wanted,
                   const char *names, int rounds) {
    frame = actions, frame_count = count, most = extra, kinds = of;
    if (found->is_full)
        stop(FOUND, "there are more than %d outcomes; give fewer extra interrupts, or fewer kinds by --of",
             MOST_OUTCOMES);
    unsigned long ways = machine_ways(frame, frame_count, extra, kinds);
    if (found->ways != ways) stop(FAILED, "%lu ways were run, and the library counts %lu", found->ways, ways);
    qsort(found->of, found->count, sizeof *found->of, by_way);
    if (wanted) {
        if (wanted < 1 || wanted > found->count)
            stop(BAD_WORDS, "--events is to be from 1 to %d, as there are that many outcomes", found->count);
        printf("%s\n", events_of(&found->of[wanted - 1].first, "\n"));
        return 0;
    }
    printf("%s: %zu actions, at most %d more of %s: %lu way%s, %d outcome%s\n", names, count, extra, of_names, ways,
           ways == 1 ? "" : "s", found->count, found->count == 1 ? "" : "s");
    printf("program: execc\nseen of a way: what the program prints, and its end\nways that end in an alert: %lu\n",
           found->alerts);
    printf("each of these ways was run, if the programs do the same each time: the first way ran twice and was the same\n");
    printf("words of shared memory: %d, found in %d round%s; no way of the last round found another\n", accesses_shared(),
           rounds, rounds == 1 ? "" : "s");
    for (int i = 0; i < found->count; i++) {
        Outcome *it = &found->of[i];
        printf("\noutcome %d: %lu way%s, first %s\n%s", i + 1, it->ways, it->ways == 1 ? "" : "s",
               events_of(&it->first, ", "), it->text);
    }
    return found->count > 1 || found->alerts || strstr(found->of[0].text, "  refused: ") ||
                   strstr(found->of[0].text, "  crash: ")
               ? FOUND
               : 0;
}
