#include "json.h"

#include <stdlib.h>
#include <string.h>

static void skip_blanks(const char **at, const char *end)
{
    while (*at < end && strchr(" \t\r\n", **at))
        (*at)++;
}

/* Moves behind the character if it is there. */
static int take(const char **at, const char *end, char wanted)
{
    skip_blanks(at, end);
    if (*at == end || **at != wanted)
        return 0;
    (*at)++;
    return 1;
}

static json *new_value(enum json_kind kind)
{
    json *value = calloc(1, sizeof *value);
    if (!value)
        abort();
    value->kind = kind;
    return value;
}

void free_json(json *value)
{
    while (value) {
        json *next = value->next;
        free_json(value->first);
        free(value);
        value = next;
    }
}

/* What stands between quotes, without escapes. */
static int read_text(const char **at, const char *end, const char **text, size_t *length)
{
    if (!take(at, end, '"'))
        return 0;
    const char *close = memchr(*at, '"', (size_t)(end - *at));
    if (!close || memchr(*at, '\\', (size_t)(close - *at)))
        return 0;
    *text = *at;
    *length = (size_t)(close - *at);
    *at = close + 1;
    return 1;
}

static json *read_null(const char **at, const char *end)
{
    for (const char *word = "null"; *word; word++, (*at)++)
        if (*at == end || **at != *word)
            return NULL;
    return new_value(JSON_NULL);
}

static json *read_number(const char **at, const char *end)
{
    uint64_t number = 0;
    const char *from = *at;
    for (; *at < end && **at >= '0' && **at <= '9'; (*at)++) {
        uint64_t digit = (uint64_t)(**at - '0');
        if (number > (UINT64_MAX - digit) / 10)
            return NULL;
        number = 10 * number + digit;
    }
    if (*at == from || (*at < end && strchr(".eE+-", **at)))
        return NULL;
    json *value = new_value(JSON_NUMBER);
    value->number = number;
    return value;
}

static json *read_parts(const char **at, const char *end, enum json_kind kind, char close)
{
    json *whole = new_value(kind);
    json **last = &whole->first;
    if (take(at, end, close))
        return whole;
    do {
        const char *key = NULL;
        size_t length = 0;
        if (kind == JSON_OBJECT && !(read_text(at, end, &key, &length) && take(at, end, ':')))
            break;
        json *part = read_json(at, end);
        if (!part)
            break;
        part->key = key;
        part->key_length = length;
        *last = part;
        last = &part->next;
        if (take(at, end, close))
            return whole;
    } while (take(at, end, ','));
    free_json(whole);
    return NULL;
}

json *read_json(const char **at, const char *end)
{
    const char *text;
    size_t length;
    skip_blanks(at, end);
    if (take(at, end, '{'))
        return read_parts(at, end, JSON_OBJECT, '}');
    if (take(at, end, '['))
        return read_parts(at, end, JSON_ARRAY, ']');
    if (*at < end && **at == '"')
        return read_text(at, end, &text, &length) ? new_value(JSON_TEXT) : NULL;
    if (*at < end && **at == 'n')
        return read_null(at, end);
    return read_number(at, end);
}

const json *part_named(const json *object, const char *name)
{
    if (!object || object->kind != JSON_OBJECT)
        return NULL;
    for (const json *part = object->first; part; part = part->next)
        if (part->key_length == strlen(name) && memcmp(part->key, name, part->key_length) == 0)
            return part;
    return NULL;
}
