/* Times works: scripts with a part "# setup", made once, and a part "# cycle", made again and again.
 *   bench [--each | --cycles N] [--library] FILE..
 * prints a line for each work: its name, nanoseconds per call (best of several rounds), calls in a cycle.
 * --each      a line for each call of the cycle too, timed by itself
 * --cycles N  nothing is timed: makes N cycles of the one FILE in timed_cycles, for a counter of instructions
 * --library   an ask goes to dossier_ask, the exported call, and not to the plain C; other works are passed over */
#define _POSIX_C_SOURCE 200809L
#include <stdlib.h>
#include <string.h>
#include <time.h>

#include "dossier_ask.h"
#include "line.h"

enum { MAX_CYCLE = 8, ROUNDS = 25, EACH_ROUNDS = 2000 };

static const double round_ns = 2e6;

static struct session session;
static struct line_call cycle[MAX_CYCLE];
static size_t cycle_len;
static bool library;
static uint8_t buffer[MAX_ROOM];

static double now(void)
{
    struct timespec t;
    clock_gettime(CLOCK_MONOTONIC, &t);
    return (double)t.tv_sec * 1e9 + (double)t.tv_nsec;
}

static void give_up(const char *name, const char *why)
{
    fprintf(stderr, "bench: %s: %s\n", name, why);
    exit(1);
}

static enum refusal ask_library(const struct line_call *c)
{
    const struct request *q = &c->request;
    const uint8_t *s = q->path.step;
    return (enum refusal)dossier_ask(q->image, q->image_len, q->role, q->user, q->time, q->path.len, s[0], s[1], s[2],
                                     s[3], s[4], s[5], q->name, c->action, buffer, c->room);
}

static enum refusal make(const struct line_call *c)
{
    struct line_result result;
    if (library)
        return ask_library(c);
    make_call(&session, c, buffer, &result);
    return result.refusal;
}

/* Takes one line of a work: made at once, or kept for the cycle. */
static void take_line(const char *name, const char *line, size_t len, bool in_cycle)
{
    static struct line_call once;
    const char *why;
    struct line_call *c = in_cycle ? &cycle[cycle_len] : &once;
    struct line_result result;
    if (in_cycle && cycle_len == MAX_CYCLE)
        give_up(name, "the cycle is too long");
    if (!parse_line(line, len, c, &why))
        give_up(name, why);
    if (in_cycle) {
        cycle_len++;
        return;
    }
    make_call(&session, c, buffer, &result);
    if (result.refusal != GRANTED)
        give_up(name, "a call of the setup is refused");
}

static void read_work(const char *name)
{
    static char line[MAX_LINE + 2];
    bool in_cycle = false;
    FILE *from = fopen(name, "r");
    if (from == NULL)
        give_up(name, "cannot be read");
    plain_start(&session);
    cycle_len = 0;
    while (fgets(line, sizeof line, from) != NULL) {
        size_t len = strcspn(line, "\n");
        if (line[0] == '#')
            in_cycle = in_cycle || strncmp(line, "# cycle", 7) == 0;
        else if (len > 0)
            take_line(name, line, len, in_cycle);
    }
    fclose(from);
    if (cycle_len == 0)
        give_up(name, "there is no cycle");
}

static size_t save_both(uint8_t *out)
{
    size_t first, second;
    plain_save(&session, 1, out, MAX_IMAGE_BYTES, &first);
    plain_save(&session, 2, out + first, MAX_IMAGE_BYTES, &second);
    return first + second;
}

/* A cycle leaves the dossiers as it found them, and nothing but an ask is refused in it. */
static void check_cycle(const char *name)
{
    static uint8_t before[2 * MAX_IMAGE_BYTES], after[2 * MAX_IMAGE_BYTES];
    for (unsigned twice = 0; twice < 2; twice++) {
        size_t len = save_both(before);
        for (size_t i = 0; i < cycle_len; i++)
            if (make(&cycle[i]) != GRANTED && cycle[i].kind != CALL_ASK)
                give_up(name, "a call of the cycle is refused");
        if (cycle[0].kind != CALL_LOAD && (save_both(after) != len || memcmp(before, after, len) != 0))
            give_up(name, "the cycle leaves another dossier");
    }
}

__attribute__((noinline)) void timed_cycles(unsigned long n);

void timed_cycles(unsigned long n)
{
    for (; n > 0; n--)
        for (size_t i = 0; i < cycle_len; i++)
            make(&cycle[i]);
}

static double time_cycles(unsigned long n)
{
    double start = now();
    timed_cycles(n);
    return now() - start;
}

static double best_cycle(void)
{
    unsigned long n = 1;
    while (time_cycles(n) < round_ns)
        n *= 2;
    double best = time_cycles(n);
    for (unsigned i = 1; i < ROUNDS; i++) {
        double t = time_cycles(n);
        if (t < best)
            best = t;
    }
    return best / (double)n;
}

/* The least time of each call of the cycle by itself, the clock's own taken off. */
static void best_each(double *best)
{
    double clock = 1e18;
    for (unsigned i = 0; i < EACH_ROUNDS; i++) {
        double start = now(), t = now() - start;
        clock = t < clock ? t : clock;
    }
    for (size_t i = 0; i < cycle_len; i++)
        best[i] = 1e18;
    for (unsigned k = 0; k < EACH_ROUNDS; k++)
        for (size_t i = 0; i < cycle_len; i++) {
            double start = now();
            make(&cycle[i]);
            double t = now() - start - clock;
            best[i] = t < best[i] ? t : best[i];
        }
}

/* The file's name without folder and ending. */
static void name_work(const char *file, char *name, size_t room)
{
    const char *slash = strrchr(file, '/');
    snprintf(name, room, "%s", slash == NULL ? file : slash + 1);
    char *dot = strrchr(name, '.');
    if (dot != NULL)
        *dot = 0;
}

static void print_each(const char *name)
{
    double best[MAX_CYCLE];
    best_each(best);
    for (size_t i = 0; i < cycle_len; i++)
        printf("%-40s %10.1f  call %zu: %s\n", name, best[i], i + 1, cycle[i].name);
}

static void bench(const char *file, bool each, unsigned long cycles)
{
    char name[128];
    name_work(file, name, sizeof name);
    read_work(file);
    if (library && cycle[0].kind != CALL_ASK)
        return;
    check_cycle(name);
    if (cycles > 0) {
        timed_cycles(cycles);
        printf("%s %lu %zu\n", name, cycles, cycle_len);
        return;
    }
    printf("%-40s %10.1f  %zu\n", name, best_cycle() / (double)cycle_len, cycle_len);
    if (each)
        print_each(name);
}

int main(int argc, char **argv)
{
    bool each = false;
    unsigned long cycles = 0;
    int i = 1;
    for (; i < argc && strncmp(argv[i], "--", 2) == 0; i++) {
        if (strcmp(argv[i], "--each") == 0)
            each = true;
        else if (strcmp(argv[i], "--library") == 0)
            library = true;
        else if (strcmp(argv[i], "--cycles") == 0 && i + 1 < argc)
            cycles = strtoul(argv[++i], NULL, 10);
        else
            give_up(argv[i], "no such option");
    }
    if (i == argc)
        give_up("usage", "bench [--each | --cycles N] [--library] FILE..");
    for (; i < argc; i++)
        bench(argv[i], each, cycles);
    return 0;
}
