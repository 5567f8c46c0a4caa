/* Runs each row for callgrind, which counts the instructions of a side between two marks: counts [c], the library or the C. */
#include "tasks.h"

#include <stdio.h>
#include <valgrind/callgrind.h>

#define REPEATS 10
#define ORDERS 64

static void count_row(const char *sort, const task *t, rounds *rounds, const call *calls, int count)
{
    static subject subject;
    static char row[200];
    subject = t->start();
    rounds(&subject, calls, count, 2);
    CALLGRIND_ZERO_STATS;
    rounds(&subject, calls, count, REPEATS);
    snprintf(row, sizeof row, "%s %s/%d", sort, t->what, REPEATS * count);
    CALLGRIND_DUMP_STATS_AT(row);
}

int main(int words, char **word)
{
    (void)word;
    int c = words > 1;
    for (size_t n = 0; n < task_count; n++) {
        const task *t = &tasks[n];
        count_row("call", t, c ? model_calls : library_calls, t->calls, t->count);
        if (t->refusal != CHIP_SY_ERR)
            count_row("core", t, c ? model_cores : library_cores, t->calls, t->count);
    }
    for (size_t n = 0; n < tray_task_count; n++) {
        call orders[ORDERS];
        fill_tray(&tray_tasks[n], orders, ORDERS);
        count_row("tray of 64:", &tray_tasks[n], c ? model_trays : library_trays, orders, ORDERS);
    }
    return 0;
}
