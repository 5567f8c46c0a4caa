/* Times the library beside the model as two compilers make it, and prints two tables: of single calls, with the soundness
 * test (call) and without it (core), and of trays. */
#include "race.h"

#include <stdio.h>

enum { GCC, CLANG, LIBRARY, BY_CALLS };

static void time_calls(const task *t, rounds *gcc, rounds *clang, rounds *library)
{
    runner runners[] = {[GCC] = {.rounds = gcc}, [CLANG] = {.rounds = clang}, [LIBRARY] = {.rounds = library}};
    race(t, t->calls, t->count, runners, LIBRARY + 1);
    double c = runners[GCC].best_ns, clangs = runners[CLANG].best_ns, ours = runners[LIBRARY].best_ns;
    printf("| %s | %.1f | %.1f | %.1f | %.2f | %.2f |\n", t->what, c, clangs, ours, ours / c, ours / clangs);
    fflush(stdout);
}

static void print_calls(void)
{
    printf("| what | C by cc, ns | C by clang, ns | library ns | of cc's | of clang's |\n|---|---|---|---|---|---|\n");
    printf("| **call: the soundness test and the operation** | | | | | |\n");
    for (size_t n = 0; n < task_count; n++)
        time_calls(&tasks[n], model_calls, clang_calls, library_calls);
    printf("| **core: the operation alone** | | | | | |\n");
    for (size_t n = 0; n < task_count; n++)
        if (tasks[n].refusal != CHIP_SY_ERR)
            time_calls(&tasks[n], model_cores, clang_cores, library_cores);
}

/* Beside the same orders as single calls of the library. */
static void time_tray(const task *t, int count)
{
    static call orders[MOST_CALLS];
    runner runners[] = {[GCC] = {.rounds = model_trays},
                        [CLANG] = {.rounds = clang_trays},
                        [LIBRARY] = {.rounds = library_trays},
                        [BY_CALLS] = {.rounds = library_calls}};
    fill_tray(t, orders, count);
    race(t, orders, count, runners, BY_CALLS + 1);
    double c = runners[GCC].best_ns, clangs = runners[CLANG].best_ns, ours = runners[LIBRARY].best_ns;
    double by_calls = runners[BY_CALLS].best_ns;
    printf("| %s | %d | %.1f | %.1f | %.1f | %.1f | %.2f | %.2f | %.2f |\n", t->what, count, c, clangs, ours, by_calls,
           ours / c, ours / clangs, ours / by_calls);
    fflush(stdout);
}

static void print_trays(void)
{
    static const int counts[] = {1, 8, 64, MOST_CALLS};
    printf("| a tray on a full chip, ns of an order | orders | C by cc | C by clang | library | library, single calls "
           "| of cc's | of clang's | of the single calls' |\n|---|---|---|---|---|---|---|---|---|\n");
    for (size_t n = 0; n < tray_task_count; n++)
        for (size_t k = 0; k < sizeof counts / sizeof *counts; k++)
            time_tray(&tray_tasks[n], counts[k]);
}

int main(void)
{
    print_calls();
    printf("\n");
    print_trays();
    return 0;
}
