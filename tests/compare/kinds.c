#include "kinds.h"

#include <stdio.h>

static void add_kinds(kinds *to, const damage *list, enum expectation expected)
{
    for (; list->name; list++)
        to->counts[to->total++] = (kind_count){list, expected, 0, 0};
}

kinds all_kinds(void)
{
    kinds all = {.total = 0};
    add_kinds(&all, table_damages, REFUSED);
    add_kinds(&all, session_damages, REFUSED);
    add_kinds(&all, harmless_changes, TAKEN);
    add_kinds(&all, noises, EITHER);
    return all;
}

kind_count *any_kind(dice *d, kinds *of)
{
    return &of->counts[below(d, (uint32_t)of->total)];
}

void count_answer(kind_count *count, uint32_t refusal)
{
    if (count->expected != EITHER)
        count->unexpected += (refusal == CHIP_SY_ERR) != (count->expected == REFUSED);
}

int print_kinds(const kinds *of, int names)
{
    int missing = 0;
    for (size_t n = 0; n < of->total; n++)
        missing += of->counts[n].done == 0;
    printf("kinds of damage: %zu of %zu done\n", of->total - (size_t)missing, of->total);
    for (size_t n = 0; names && n < of->total; n++)
        if (of->counts[n].done == 0)
            printf("  not done: %s\n", of->counts[n].kind->name);
    return missing;
}

int print_unexpected(const kinds *of)
{
    int unexpected = 0;
    for (size_t n = 0; n < of->total; n++) {
        const kind_count *count = &of->counts[n];
        if (count->unexpected == 0)
            continue;
        unexpected++;
        printf("  %s, %lu times: %s\n", count->expected == REFUSED ? "not refused" : "refused", count->unexpected,
               count->kind->name);
    }
    printf("kinds of damage not answered as expected: %d\n", unexpected);
    return unexpected;
}
