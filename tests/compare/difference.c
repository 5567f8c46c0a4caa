#include "difference.h"

#include <stdio.h>
#include <string.h>

#define MOST_WORDS_PRINTED 8

static int same_words(const uint64_t *one, const uint64_t *other, size_t words)
{
    return memcmp(one, other, words * sizeof *one) == 0;
}

int agree(const side *one, const chip_answer *its, const side *other, const chip_answer *others)
{
    return its->refusal == others->refusal && its->value == others->value && its->place == others->place &&
           same_session(&its->session, &others->session) &&
           same_words(working_of(one), working_of(other), other->working_words) &&
           same_words(kept_of(one), kept_of(other), other->kept_words) && tails_untouched(one) &&
           tails_untouched(other);
}

void print_call(const call *asked)
{
    printf("  op %u (%s), a %u, b %u, c %u\n", (unsigned)asked->op, chip_operation_name(asked->op), (unsigned)asked->a,
           (unsigned)asked->b, (unsigned)asked->c);
}

/* The names of those who differ. */
typedef struct pair {
    const char *one, *other;
} pair;

static void print_field(pair names, const char *field, uint64_t its, uint64_t others)
{
    if (its != others)
        printf("  %s: %s %llu (0x%llx), %s %llu (0x%llx)\n", field, names.one, (unsigned long long)its,
               (unsigned long long)its, names.other, (unsigned long long)others, (unsigned long long)others);
}

static void print_sessions(pair names, const chip_session *its, const chip_session *others)
{
    print_field(names, "session opened", its->opened, others->opened);
    print_field(names, "session recording", its->recording, others->recording);
    print_field(names, "session transaction", its->transaction, others->transaction);
    print_field(names, "session repositories", its->repositories, others->repositories);
    print_field(names, "session ro", its->ro, others->ro);
    print_field(names, "session rw", its->rw, others->rw);
    print_field(names, "session count", its->count, others->count);
    for (int e = 0; e < CHIP_EVENTS; e++) {
        char field[40];
        snprintf(field, sizeof field, "session events[%d].op", e);
        print_field(names, field, its->events[e].op, others->events[e].op);
        snprintf(field, sizeof field, "session events[%d].refusal", e);
        print_field(names, field, its->events[e].refusal, others->events[e].refusal);
        snprintf(field, sizeof field, "session events[%d].place", e);
        print_field(names, field, its->events[e].place, others->events[e].place);
    }
}

static void print_tables(pair names, const char *table, const uint64_t *its, const uint64_t *others, size_t words)
{
    int printed = 0;
    for (size_t n = 0; n < words; n++) {
        if (its[n] == others[n])
            continue;
        if (printed++ == MOST_WORDS_PRINTED) {
            printf("  %s: more words differ\n", table);
            return;
        }
        char word[40];
        snprintf(word, sizeof word, "%s[%zu]", table, n);
        print_field(names, word, its[n], others[n]);
    }
}

static void print_tails(const side *s)
{
    if (!tails_untouched(s))
        printf("  %s: words from %d on were touched\n", s->name, CHIP_WORDS);
}

void print_difference(const side *one, const chip_answer *its, const side *other, const chip_answer *others)
{
    pair names = {one->name, other->name};
    printf("  %zu working and %zu kept words\n", other->working_words, other->kept_words);
    if (its->refusal != others->refusal)
        printf("  refusal: %s %u %s, %s %u %s\n", names.one, (unsigned)its->refusal, chip_refusal_name(its->refusal),
               names.other, (unsigned)others->refusal, chip_refusal_name(others->refusal));
    print_field(names, "value", its->value, others->value);
    print_field(names, "place", its->place, others->place);
    print_sessions(names, &its->session, &others->session);
    print_tables(names, "working", working_of(one), working_of(other), other->working_words);
    print_tables(names, "kept", kept_of(one), kept_of(other), other->kept_words);
    print_tails(one);
    print_tails(other);
}
