#include "display.h"
#include "race.h"
#include "sides.h"
#include "tables.h"

#include <stdio.h>

typedef struct {
    const Side *side;
    const Stream *stream;
    size_t piece;
} Feeding;

static void run(const void *what, unsigned long times)
{
    const Feeding *f = what;
    while (times-- > 0)
        feed_stream(f->side, f->stream, f->piece);
}

// One side that is not met, behind those before it.
static void print_miss(const char *side, int *misses)
{
    printf("%s%s", *misses > 0 ? ", " : " not met to ", side);
    *misses += 1;
}

static void print_goal(Goal goal, const double *ns)
{
    int misses = 0;
    if (goal.plain == COUNTED) {
        printf(" in instructions | |\n");
        return;
    }
    printf(" %.2f", goal.plain);
    if (goal.by_bytes != NONE)
        printf(", by bytes %.2f", goal.by_bytes);
    printf(" |");
    if (ns[OURS] > ns[INDEPENDENT])
        print_miss("the independent one", &misses);
    if (ns[OURS] > goal.plain * ns[PLAIN_PIXELS])
        print_miss("plain C", &misses);
    if (goal.by_bytes != NONE && ns[OURS] > goal.by_bytes * ns[PLAIN_BYTES])
        print_miss("plain C by bytes", &misses);
    printf(misses > 0 ? " |\n" : " met |\n");
}

static void print_row(const char *name, uint32_t edition, const Stream *setup, const Stream *timed, size_t piece,
                      Goal goal, double shortest)
{
    Feeding feedings[SIDES];
    Runner runners[SIDES];
    double ns[SIDES];
    int i;
    check_agreement(name, edition, setup, timed);
    for (i = 0; i < SIDES; i++) {
        feedings[i] = (Feeding){&sides[i], timed, piece};
        runners[i] = (Runner){run, &feedings[i], 0};
    }
    race(runners, SIDES, shortest);
    for (i = 0; i < SIDES; i++)
        ns[i] = 1e9 * runners[i].seconds / (double)timed->length;
    printf("| %s | %lu | %.1f |", name, (unsigned long)piece, ns[OURS]);
    for (i = OURS + 1; i < SIDES; i++)
        printf(" %.1f | %.2f |", ns[i], ns[OURS] / ns[i]);
    print_goal(goal, ns);
    fflush(stdout);
}

void print_feeding(double shortest)
{
    static Stream setup, timed;
    size_t i;
    printf("display_feed, ns a byte. Goal: the ratio to plain C, and to plain C by bytes where that is said; that to the "
           "independent implementation is 1.\n\n"
           "| Stream | Piece | Ours | Independent | Ratio | Plain C | Ratio | Plain C by bytes | Ratio | Goal "
           "| Today |\n"
           "|---|---|---|---|---|---|---|---|---|---|---|\n");
    mixed(&timed);
    print_row("mixed", DISPLAY_OLDER_EDITION, &setup, &timed, PIECE, (Goal){1, NONE}, shortest);
    print_row("mixed", DISPLAY_OLDER_EDITION, &setup, &timed, 1, (Goal){1, NONE}, shortest);
    for (i = 0; i < family_count; i++) {
        setup.length = timed.length = 0;
        families[i].setup(&setup);
        families[i].timed(&timed);
        print_row(families[i].name, families[i].edition, &setup, &timed, PIECE, families[i].goal, shortest);
        if (families[i].by_byte)
            print_row(families[i].name, families[i].edition, &setup, &timed, 1, (Goal){COUNTED, NONE}, shortest);
    }
    printf("\n");
}
