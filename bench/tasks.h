/* What is timed and counted: rows of calls, and the chips that they are made on. */
#ifndef TASKS_H
#define TASKS_H

#include "rounds.h"

#include <stddef.h>

/* A row of calls that leads back to where it began, at the latest when it is made again. */
typedef struct task {
    const char *what;
    subject (*start)(void);
    uint32_t refusal; /* what every call must answer */
    int count;
    call calls[3];
} task;

extern const task tasks[];
extern const size_t task_count;

/* Their calls are made of one instance after the other, as many as a tray has. */
extern const task tray_tasks[];
extern const size_t tray_task_count;
void fill_tray(const task *t, call *orders, int count);

/* Says what went wrong and ends the program. */
void fail(const char *what);

#endif
