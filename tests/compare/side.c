#include "side.h"

#include "guarded.h"

#include <string.h>

static const uint64_t working_pattern = 0x9e3779b97f4a7c15;
static const uint64_t kept_pattern = 0xbf58476d1ce4e5b9;

side new_side(const char *name, chip_function *function)
{
    const size_t most = MOST_WORDS * sizeof(uint64_t);
    return (side){.name = name, .function = function, .working_end = guarded_end(most), .kept_end = guarded_end(most)};
}

uint64_t *working_of(const side *s)
{
    return s->working_end - s->working_words;
}

uint64_t *kept_of(const side *s)
{
    return s->kept_end - s->kept_words;
}

static size_t table_bytes(size_t words)
{
    return (words < CHIP_WORDS ? words : CHIP_WORDS) * sizeof(uint64_t);
}

static void load_table(uint64_t *table, size_t words, const uint64_t *from, uint64_t pattern)
{
    memcpy(table, from, table_bytes(words));
    for (size_t n = CHIP_WORDS; n < words; n++)
        table[n] = n * pattern;
}

void load(side *s, const state *from)
{
    s->session = from->session;
    s->working_words = from->working_words;
    s->kept_words = from->kept_words;
    load_table(working_of(s), s->working_words, from->working, working_pattern);
    load_table(kept_of(s), s->kept_words, from->kept, kept_pattern);
}

void store(const side *s, state *to)
{
    to->session = s->session;
    to->working_words = s->working_words;
    to->kept_words = s->kept_words;
    memcpy(to->working, working_of(s), table_bytes(s->working_words));
    memcpy(to->kept, kept_of(s), table_bytes(s->kept_words));
}

chip_answer ask(side *s, const call *asked)
{
    chip_answer answer = s->function(asked->op, asked->a, asked->b, asked->c, s->session, working_of(s),
                                     s->working_words, kept_of(s), s->kept_words);
    s->session = answer.session;
    return answer;
}

static int tail_untouched(const uint64_t *table, size_t words, uint64_t pattern)
{
    for (size_t n = CHIP_WORDS; n < words; n++)
        if (table[n] != n * pattern)
            return 0;
    return 1;
}

int tails_untouched(const side *s)
{
    return tail_untouched(working_of(s), s->working_words, working_pattern) &&
           tail_untouched(kept_of(s), s->kept_words, kept_pattern);
}
