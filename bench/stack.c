/* The deepest stack of a call and of a tray over all rows, by what is left of a pattern on a stack of its own. */
#include "tasks.h"

#include <stdio.h>
#include <string.h>
#include <ucontext.h>

#define ROOM (64 * 1024)
#define PATTERN 0xa5

static unsigned char room[ROOM];
static ucontext_t here, there;
static rounds *its_rounds;
static const task *its_task;
static subject its_subject;

/* ---- a side that does nothing, for the caller's own need ---- */

chip_function nobody_call;
tray_function nobody_tray;
rounds nobody_calls, nobody_trays;

chip_answer nobody_call(uint32_t op, uint32_t a, uint32_t b, uint32_t c, chip_session session,
                        uint64_t *working, size_t working_words,
                        uint64_t *kept, size_t kept_words)
{
    (void)op, (void)a, (void)b, (void)c, (void)session, (void)working, (void)working_words, (void)kept, (void)kept_words;
    return (chip_answer){0};
}

chip_answer nobody_tray(const chip_order *orders, size_t count, chip_result *answers, size_t places,
                        chip_session session,
                        uint64_t *working, size_t working_words,
                        uint64_t *kept, size_t kept_words)
{
    (void)orders, (void)count, (void)answers, (void)places, (void)session;
    (void)working, (void)working_words, (void)kept, (void)kept_words;
    return (chip_answer){0};
}

/* ---- the others ---- */

static void make_round(void)
{
    its_rounds(&its_subject, its_task->calls, its_task->count, 1);
}

static size_t deepest(const task *t, rounds *rounds)
{
    its_rounds = rounds, its_task = t;
    its_subject = t->start();
    memset(room, PATTERN, ROOM);
    getcontext(&there);
    there.uc_stack.ss_sp = room;
    there.uc_stack.ss_size = ROOM;
    there.uc_link = &here;
    makecontext(&there, make_round, 0);
    swapcontext(&here, &there);
    size_t untouched = 0;
    while (untouched < ROOM && room[untouched] == PATTERN)
        untouched++;
    return ROOM - untouched;
}

static void tell(const char *what, rounds *its, rounds *nobodys)
{
    size_t most = 0, own = deepest(&tasks[0], nobodys) - sizeof(chip_session);
    for (size_t n = 0; n < task_count; n++) {
        size_t depth = deepest(&tasks[n], its);
        if (depth > most)
            most = depth;
    }
    printf("%zu bytes of stack at most, with the session handed over, in a %s\n", most - own, what);
}

int main(void)
{
    tell("call of the library", library_calls, nobody_calls);
    tell("call of the C by cc", model_calls, nobody_calls);
    tell("call of the C by clang", clang_calls, nobody_calls);
    tell("tray of the library", library_trays, nobody_trays);
    tell("tray of the C by cc", model_trays, nobody_trays);
    tell("tray of the C by clang", clang_trays, nobody_trays);
    return 0;
}
