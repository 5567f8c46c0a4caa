/* Calls and trays on any state, with all that must come back, from a file of vectors: calls FILE
 * Library and model are asked each; answers, session and every word of both tables are compared. */
#include "json.h"

#include "../compare/call.h"
#include "../compare/guarded.h"
#include "../model/model.h"

#include <stdio.h>
#include <stdlib.h>
#include <string.h>

#define MOST_PRINTED 20

/* Of a tray, and of its row for the answers. */
#define MOST_ORDERS 5000
#define MOST_PLACES 6000

static const char *path;
static unsigned long line;

static void fail(const char *what)
{
    fprintf(stderr, "calls: %s, %lu: %s\n", path, line, what);
    exit(2);
}

/* ---- what a line has ---- */

typedef struct table {
    size_t length;
    uint64_t words[MOST_WORDS];
} table;

typedef struct chip_state {
    chip_session session;
    table working, kept;
} chip_state;

typedef struct vector {
    int is_tray;
    size_t count, places; /* of a tray's orders, and of its row for the answers */
    call orders[MOST_ORDERS]; /* a call is the first */
    chip_state before, after;
    chip_result answer;               /* to the call, or the tray's own */
    chip_result answers[MOST_PLACES]; /* the row after the tray; what stays of it is as blank_row has it */
} vector;

static uint64_t number_of(const json *value)
{
    if (!value || value->kind != JSON_NUMBER)
        fail("a number is missing");
    return value->number;
}

static uint64_t number(const json *object, const char *name)
{
    return number_of(part_named(object, name));
}

static uint32_t narrow(uint64_t wide, uint32_t most)
{
    if (wide > most)
        fail("a number is too large for its field");
    return (uint32_t)wide;
}

static const json *first_of(const json *array)
{
    if (!array || array->kind != JSON_ARRAY)
        fail("a row is missing");
    return array->first;
}

static uint32_t small_number(const json *object, const char *name)
{
    return narrow(number(object, name), UINT32_MAX);
}

/* Puts the first numbers of an array there; there may be more. */
static void read_numbers(const json *array, int count, uint64_t *to)
{
    const json *part = first_of(array);
    for (int n = 0; n < count; n++, part = part->next) {
        if (!part)
            fail("a row is too short");
        to[n] = number_of(part);
    }
}

static void read_events(const json *events, chip_event *to)
{
    const json *event = first_of(events);
    for (int e = 0; e < CHIP_EVENTS; e++, event = event->next) {
        uint64_t numbers[3];
        read_numbers(event, 3, numbers);
        to[e].op = narrow(numbers[0], UINT32_MAX);
        to[e].refusal = (uint8_t)narrow(numbers[1], UINT8_MAX);
        to[e].place = (uint8_t)narrow(numbers[2], UINT8_MAX);
    }
}

static void read_session(const json *from, chip_session *to)
{
    to->opened = small_number(from, "open");
    to->recording = small_number(from, "recording");
    to->transaction = small_number(from, "trans");
    to->repositories = number(from, "repos");
    to->ro = number(from, "ro");
    to->rw = number(from, "rw");
    to->count = number(from, "nev");
    read_events(part_named(from, "raw_events"), to->events);
}

static size_t index_of(const json *word)
{
    size_t index = 0;
    for (size_t n = 0; n < word->key_length; n++) {
        if (word->key[n] < '0' || word->key[n] > '9' || index >= MOST_WORDS)
            fail("a word's index is no number of a word");
        index = 10 * index + (size_t)(word->key[n] - '0');
    }
    return index;
}

static void read_table(const json *from, table *to)
{
    const json *words = part_named(from, "w");
    to->length = number(from, "len");
    if (to->length > MOST_WORDS || !words)
        fail("a table is too long, or has no words");
    for (const json *word = words->first; word; word = word->next) {
        size_t index = index_of(word);
        if (index >= to->length)
            fail("a word lies behind its table");
        to->words[index] = number_of(word);
    }
}

static void read_state(const json *from, chip_state *to)
{
    read_session(part_named(from, "session"), &to->session);
    read_table(part_named(from, "working"), &to->working);
    read_table(part_named(from, "kept"), &to->kept);
}

static chip_result read_answer(const json *from)
{
    uint64_t numbers[3];
    read_numbers(from, 3, numbers);
    return (chip_result){.refusal = (uint16_t)narrow(numbers[0], UINT16_MAX),
                         .value = narrow(numbers[1], UINT32_MAX),
                         .place = (uint16_t)narrow(numbers[2], UINT16_MAX)};
}

static void read_call(const json *question, vector *to)
{
    to->orders[0] = (call){small_number(question, "op"), small_number(question, "a"), small_number(question, "b"),
                           small_number(question, "c")};
}

static void read_orders(const json *orders, vector *to)
{
    for (const json *order = first_of(orders); order; order = order->next) {
        uint64_t numbers[4];
        if (to->count == MOST_ORDERS)
            fail("a tray is too long");
        read_numbers(order, 4, numbers);
        to->orders[to->count++] = (call){narrow(numbers[0], UINT32_MAX), narrow(numbers[1], UINT32_MAX),
                                         narrow(numbers[2], UINT32_MAX), narrow(numbers[3], UINT32_MAX)};
    }
}

static void read_answers(const json *answers, vector *to)
{
    const json *answer = first_of(answers);
    blank_row(to->answers, to->places);
    for (size_t n = 0; n < to->places; n++, answer = answer->next) {
        if (!answer)
            fail("an answer is missing");
        if (answer->kind != JSON_NULL)
            to->answers[n] = read_answer(answer);
    }
    if (answer)
        fail("there is an answer too many");
}

static void read_tray(const json *question, const json *reply, vector *to)
{
    to->is_tray = 1;
    to->places = number(question, "answers");
    if (to->places > MOST_PLACES)
        fail("a row for answers is too long");
    read_orders(part_named(question, "ops"), to);
    read_answers(part_named(reply, "answers"), to);
}

static void read_vector(const json *from, vector *to)
{
    const json *question = part_named(from, "q"), *reply = part_named(from, "r");
    memset(to, 0, sizeof *to);
    if (part_named(question, "ops"))
        read_tray(question, reply, to);
    else
        read_call(question, to);
    read_state(question, &to->before);
    read_state(reply, &to->after);
    to->answer = read_answer(part_named(reply, "answer"));
}

/* ---- asking ---- */

typedef struct answerer {
    const char *name;
    chip_function *call;
    tray_function *tray;
} answerer;

static const answerer library = {"library", chip_call, chip_tray}, model = {"model", model_call, model_tray};

/* Tables and rows that end where memory must not be touched. */
static uint64_t *working_end, *kept_end;
static chip_order *orders_end;
static chip_result *answers_end;

static void make_room(void)
{
    working_end = guarded_end(MOST_WORDS * sizeof *working_end);
    kept_end = guarded_end(MOST_WORDS * sizeof *kept_end);
    orders_end = guarded_end(MOST_ORDERS * sizeof *orders_end);
    answers_end = guarded_end(MOST_PLACES * sizeof *answers_end);
}

static uint64_t *put_table(uint64_t *end, const table *from)
{
    return memcpy(end - from->length, from->words, from->length * sizeof *end);
}

static int same_table(const uint64_t *words, const table *expected)
{
    return memcmp(words, expected->words, expected->length * sizeof *words) == 0;
}

static chip_answer ask(const vector *v, const answerer *who)
{
    const chip_state *on = &v->before;
    uint64_t *working = put_table(working_end, &on->working), *kept = put_table(kept_end, &on->kept);
    chip_order *orders = memcpy(orders_end - v->count, v->orders, v->count * sizeof *orders);
    const call *first = &v->orders[0];
    blank_row(answers_end - v->places, v->places);
    if (v->is_tray)
        return who->tray(orders, v->count, answers_end - v->places, v->places, on->session, working, on->working.length,
                         kept, on->kept.length);
    return who->call(first->op, first->a, first->b, first->c, on->session, working, on->working.length, kept,
                     on->kept.length);
}

static void print_question(const vector *v)
{
    const call *first = &v->orders[0];
    if (v->is_tray)
        printf("a tray of %zu in a row of %zu", v->count, v->places);
    else
        printf("op %u (%s), a %u, b %u, c %u", (unsigned)first->op, chip_operation_name(first->op), (unsigned)first->a,
               (unsigned)first->b, (unsigned)first->c);
}

/* Whether it answers as the line has it. */
static int is_answered(const vector *v, const answerer *who)
{
    static unsigned long printed;
    chip_answer answer = ask(v, who);
    int numbers = answer.refusal == v->answer.refusal && answer.value == v->answer.value && answer.place == v->answer.place;
    int row = memcmp(answers_end - v->places, v->answers, v->places * sizeof *v->answers) == 0;
    int session = same_session(&answer.session, &v->after.session);
    int tables = same_table(working_end - v->before.working.length, &v->after.working) &&
                 same_table(kept_end - v->before.kept.length, &v->after.kept);
    if (numbers && row && session && tables)
        return 1;
    if (printed++ < MOST_PRINTED) {
        printf("line %lu, %s: ", line, who->name);
        print_question(v);
        printf(": %s %u, place %u, expected %s %u, place %u%s%s%s\n", chip_refusal_name(answer.refusal),
               (unsigned)answer.value, (unsigned)answer.place, chip_refusal_name(v->answer.refusal),
               (unsigned)v->answer.value, (unsigned)v->answer.place, row ? "" : "; the row differs",
               session ? "" : "; the session differs", tables ? "" : "; words of the tables differ");
    }
    return 0;
}

/* ---- the file ---- */

static char *read_file(size_t *length)
{
    FILE *file = fopen(path, "rb");
    size_t room = 1 << 16;
    char *text = malloc(room);
    if (!file || !text)
        fail("cannot be read");
    *length = 0;
    for (size_t got; (got = fread(text + *length, 1, room - *length, file)) > 0;) {
        *length += got;
        if (*length == room && !(text = realloc(text, room *= 2)))
            fail("is too long");
    }
    if (ferror(file))
        fail("cannot be read");
    fclose(file);
    return text;
}

int main(int count, char **words)
{
    static vector v;
    unsigned long differ = 0;
    size_t length;
    if (count != 2) {
        fprintf(stderr, "calls: which file? calls FILE\n");
        return 2;
    }
    path = words[1];
    char *text = read_file(&length);
    make_room();
    for (const char *at = text, *end = text + length; at < end;) {
        const char *close = memchr(at, '\n', (size_t)(end - at));
        json *value = read_json(&at, close ? close : end);
        line++;
        if (!value || at != (close ? close : end))
            fail("is not JSON as expected");
        read_vector(value, &v);
        differ += !(is_answered(&v, &library) & is_answered(&v, &model));
        free_json(value);
        at += close != NULL;
    }
    free(text);
    printf("calls: %lu equal, %lu differ\n", line - differ, differ);
    if (line == 0)
        fail("nothing was compared");
    return differ != 0;
}
