/* A reader of JSON as the vectors have it: objects, arrays, plain texts, whole numbers below 2^64 and null. */
#ifndef JSON_H
#define JSON_H

#include <stddef.h>
#include <stdint.h>

enum json_kind { JSON_NULL, JSON_NUMBER, JSON_TEXT, JSON_ARRAY, JSON_OBJECT };

typedef struct json {
    enum json_kind kind;
    const char *key; /* in an object; not ended by a 0 */
    size_t key_length;
    uint64_t number;
    struct json *first, *next; /* of an object's or array's parts; of the whole that this is a part of */
} json;

/* Reads the value at *at and moves *at behind it; NULL if there is none. free_json gives it back. */
json *read_json(const char **at, const char *end);
void free_json(json *value);

/* The part of that name, or NULL. */
const json *part_named(const json *object, const char *name);

#endif
