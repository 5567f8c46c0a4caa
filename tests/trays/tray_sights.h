/* What a run of trays is to see. */
#ifndef TRAY_SIGHTS_H
#define TRAY_SIGHTS_H

#include "tray.h"

/* A tray, and what the single calls answered. */
typedef struct tray_view {
    const tray *tray;
    const chip_result *answers;
    size_t answered; /* all orders, or none where the row is too short */
    const state *before;
    int unsound; /* whether the state is known to be so */
    size_t cut;  /* how many orders the first of its two parts has */
} tray_view;

/* Counts what this tray saw. */
void see_tray(const tray_view *v);

/* Prints how many sights were seen and, if asked, the names of the others; returns how many others. */
int print_tray_sights(int names);

#endif
