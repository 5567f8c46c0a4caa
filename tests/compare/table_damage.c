/* Damage to the tables: their length, each kind of entry, the cursors, and that they agree. */
#include "damage.h"
#include "spots.h"

#include <string.h>

/* ---- the length of the tables ---- */

static size_t too_few(dice *d)
{
    return any_entry(d, CHIP_WORDS);
}

static int working_too_short(dice *d, state *s)
{
    s->working_words = too_few(d);
    return 1;
}

static int kept_too_short(dice *d, state *s)
{
    s->kept_words = too_few(d);
    return 1;
}

static int both_too_short(dice *d, state *s)
{
    s->working_words = s->kept_words = too_few(d);
    return 1;
}

/* Some or all of the cursors lie behind the end. */
static int too_short_for_cursors(dice *d, state *s)
{
    size_t words = CHIP_WORDS - 1 - below(d, ENTRY_KINDS);
    s->working_words = one_in(d, 2) ? words : CHIP_WORDS;
    s->kept_words = s->working_words == words && one_in(d, 2) ? CHIP_WORDS : words;
    return 1;
}

/* ---- the words of models and schema instances ---- */

static uint64_t word_of_schema_0(dice *d)
{
    return new_entry(d, 0);
}

static uint64_t word_of_schema_3(dice *d)
{
    return new_entry(d, 3);
}

static uint64_t word_with_bit_above(dice *d)
{
    uint64_t word = new_entry(d, any_schema(d));
    return word | one_bit(d, 42, 63);
}

static uint64_t word_of_repository_8(dice *d)
{
    uint64_t word = new_entry(d, any_schema(d));
    return word | one_bit(d, 35, 39);
}

static int put_model(dice *d, uint64_t *table, uint64_t access, uint64_t word)
{
    uint32_t model = idle_model(d, table, access);
    if (model == NOWHERE)
        return 0;
    table[model] = word;
    return 1;
}

/* Nothing refers to a schema instance, so every place will do. */
static int put_schema_instance(dice *d, uint64_t *table, uint64_t word, uint64_t set)
{
    uint64_t *schema_instance = table + CHIP_SCHEMA_INSTANCE_AT(any_entry(d, CHIP_SCHEMA_INSTANCES));
    schema_instance[0] = word;
    schema_instance[1] = set;
    return 1;
}

static int model_of_schema_0(dice *d, uint64_t *table, uint64_t access)
{
    return put_model(d, table, access, word_of_schema_0(d));
}

static int model_of_schema_3(dice *d, uint64_t *table, uint64_t access)
{
    return put_model(d, table, access, word_of_schema_3(d));
}

static int model_with_bit_above(dice *d, uint64_t *table, uint64_t access)
{
    return put_model(d, table, access, word_with_bit_above(d));
}

static int model_of_repository_8(dice *d, uint64_t *table, uint64_t access)
{
    return put_model(d, table, access, word_of_repository_8(d));
}

static int schema_instance_of_schema_0(dice *d, uint64_t *table, uint64_t access)
{
    (void)access;
    return put_schema_instance(d, table, word_of_schema_0(d), 0);
}

static int schema_instance_of_schema_3(dice *d, uint64_t *table, uint64_t access)
{
    (void)access;
    return put_schema_instance(d, table, word_of_schema_3(d), 0);
}

static int schema_instance_with_bit_above(dice *d, uint64_t *table, uint64_t access)
{
    (void)access;
    return put_schema_instance(d, table, word_with_bit_above(d), 0);
}

static int schema_instance_of_repository_8(dice *d, uint64_t *table, uint64_t access)
{
    (void)access;
    return put_schema_instance(d, table, word_of_repository_8(d), 0);
}

static int free_schema_instance_with_set(dice *d, uint64_t *table, uint64_t access)
{
    (void)access;
    uint32_t model = live_model(d, table);
    return put_schema_instance(d, table, 0, (uint64_t)1 << (model == NOWHERE ? below(d, CHIP_MODELS) : model));
}

/* ---- names ---- */

#define OTHER_SCHEMA ((uint64_t)3 << 40)

static int same_model_name(dice *d, uint64_t *table, uint64_t access, uint64_t change)
{
    uint32_t named = live_model(d, table);
    uint32_t twin = named == NOWHERE ? NOWHERE : idle_model(d, table, access | (uint64_t)1 << named);
    if (twin == NOWHERE)
        return 0;
    table[twin] = table[named] ^ change;
    return 1;
}

static int model_named_twice(dice *d, uint64_t *table, uint64_t access)
{
    return same_model_name(d, table, access, 0);
}

static int model_named_twice_over_schemas(dice *d, uint64_t *table, uint64_t access)
{
    return same_model_name(d, table, access, OTHER_SCHEMA);
}

/* Any two of the chain. */
static int named_twice_in_a_chain(dice *d, uint64_t *table, uint64_t access)
{
    uint64_t models = chained_names(d, table, access);
    uint32_t named = idle_model(d, table, ~models);
    uint32_t twin = named == NOWHERE ? NOWHERE : idle_model(d, table, ~models | (uint64_t)1 << named);
    if (twin == NOWHERE)
        return 0;
    table[twin] = table[named] ^ (one_in(d, 2) ? OTHER_SCHEMA : 0);
    return 1;
}

static int same_schema_instance_name(dice *d, uint64_t *table, uint64_t change)
{
    uint32_t named = live_schema_instance(d, table);
    if (named == NOWHERE)
        return 0;
    uint32_t twin = (named + 1 + below(d, CHIP_SCHEMA_INSTANCES - 1)) % CHIP_SCHEMA_INSTANCES;
    table[CHIP_SCHEMA_INSTANCE_AT(twin)] = table[CHIP_SCHEMA_INSTANCE_AT(named)] ^ change;
    table[CHIP_SCHEMA_INSTANCE_AT(twin) + 1] = 0;
    return 1;
}

static int schema_instance_named_twice(dice *d, uint64_t *table, uint64_t access)
{
    (void)access;
    return same_schema_instance_name(d, table, 0);
}

static int schema_instance_named_twice_over_schemas(dice *d, uint64_t *table, uint64_t access)
{
    (void)access;
    return same_schema_instance_name(d, table, OTHER_SCHEMA);
}

/* ---- sets ---- */

static int set_names(dice *d, uint64_t *table, uint32_t schema, uint32_t model)
{
    if (model == NOWHERE)
        return 0;
    uint64_t word = new_entry(d, schema);
    uint32_t member = live_model_of(d, table, schema);
    uint64_t others = member == NOWHERE ? 0 : (uint64_t)1 << member;
    return put_schema_instance(d, table, word, others | (uint64_t)1 << model);
}

static int set_names_free_model(dice *d, uint64_t *table, uint64_t access)
{
    (void)access;
    uint32_t schema = any_schema(d);
    return set_names(d, table, schema, free_model(d, table));
}

static int set_names_model_of_other_schema(dice *d, uint64_t *table, uint64_t access)
{
    (void)access;
    uint32_t schema = any_schema(d);
    return set_names(d, table, schema, live_model_of(d, table, 3 - schema));
}

/* ---- Instances ---- */

/* Without its flag. */
static int put_value(dice *d, uint64_t *instance, uint32_t attribute)
{
    instance[1 + attribute] = one_bit(d, 0, 63);
    return 1;
}

static int free_instance_with_value(dice *d, uint64_t *table, uint64_t access)
{
    (void)access;
    uint64_t *instance = vacate(d, table, NULL);
    if (!instance)
        return 0;
    return put_value(d, instance, below(d, CHIP_ATTRIBUTES));
}

static int low_byte_is(uint64_t *instance, uint32_t byte)
{
    if (!instance)
        return 0;
    instance[0] = (instance[0] & ~(uint64_t)0xff) | byte;
    return instance[0] != 0;
}

static int instance_of_type_above_9(dice *d, uint64_t *table, uint64_t access)
{
    (void)access;
    uint32_t byte = CHIP_TYPES + 1 + any_entry(d, 255 - CHIP_TYPES);
    return low_byte_is(new_instance_of_any_type(d, table), byte);
}

static int instance_without_type(dice *d, uint64_t *table, uint64_t access)
{
    (void)access;
    return low_byte_is(new_instance_of_any_type(d, table), 0);
}

/* The model that an instance lies in. */
static int model_byte_is(dice *d, uint64_t *table, uint32_t type, uint32_t model)
{
    uint64_t *instance = model == NOWHERE ? NULL : new_instance(d, table, type, NULL);
    if (!instance)
        return 0;
    instance[0] = (instance[0] & 0xff) | (uint64_t)model << 8;
    return 1;
}

static int instance_of_model_above_63(dice *d, uint64_t *table, uint64_t access)
{
    (void)access;
    uint32_t type = below(d, CHIP_TYPES);
    uint32_t model = live_model_of(d, table, dictionary[type].schema);
    return model_byte_is(d, table, type, model == NOWHERE ? NOWHERE : model | (uint32_t)one_bit(d, 6, 7));
}

static int instance_of_free_model(dice *d, uint64_t *table, uint64_t access)
{
    (void)access;
    uint32_t type = below(d, CHIP_TYPES);
    return model_byte_is(d, table, type, free_model(d, table));
}

static int instance_of_model_of_other_schema(dice *d, uint64_t *table, uint64_t access)
{
    (void)access;
    uint32_t type = below(d, CHIP_TYPES);
    return model_byte_is(d, table, type, live_model_of(d, table, 3u - dictionary[type].schema));
}

/* Flags of attributes that the type lacks. */
static int flag_of_lacking_attribute(dice *d, uint64_t *table, uint64_t access)
{
    (void)access;
    uint64_t *instance = new_instance_of_any_type(d, table);
    if (!instance)
        return 0;
    uint32_t attributes = definition(instance)->attributes;
    set_attribute(instance, attributes + below(d, CHIP_ATTRIBUTES - attributes), 0);
    return 1;
}

static int header_bit_above_flags(dice *d, uint64_t *table, uint64_t access)
{
    (void)access;
    uint64_t *instance = new_instance_of_any_type(d, table);
    if (!instance)
        return 0;
    instance[0] |= one_bit(d, 20, 63);
    return 1;
}

/* Values of more than 32 bits. Attribute 0 is a number in every type. */
static int value_of_2_to_32(dice *d, uint64_t *table, uint64_t access)
{
    (void)access;
    uint64_t *instance = new_instance_of_any_type(d, table);
    if (!instance)
        return 0;
    uint32_t attribute = below(d, definition(instance)->attributes);
    if (attribute == definition(instance)->reference)
        attribute = 0;
    set_attribute(instance, attribute, one_bit(d, 32, 63));
    return 1;
}

/* A value where none is set. */
static int value_of_unset_attribute(dice *d, uint64_t *table, uint64_t access)
{
    (void)access;
    uint64_t *instance = new_instance_of_any_type(d, table);
    if (!instance)
        return 0;
    return put_value(d, instance, below(d, definition(instance)->attributes));
}

static int value_of_lacking_attribute(dice *d, uint64_t *table, uint64_t access)
{
    (void)access;
    uint64_t *instance = new_instance_of_any_type(d, table);
    if (!instance)
        return 0;
    uint32_t attributes = definition(instance)->attributes;
    return put_value(d, instance, attributes + below(d, CHIP_ATTRIBUTES - attributes));
}

/* Where a reference leads. */
static uint32_t type_with_reference(dice *d)
{
    uint32_t type = below(d, CHIP_TYPES);
    while (dictionary[type].reference == NO_REFERENCE)
        type = below(d, CHIP_TYPES);
    return type;
}

static int reference_to_free_instance(dice *d, uint64_t *table, uint64_t access)
{
    (void)access;
    uint64_t *target = vacate(d, table, NULL);
    return target && new_referrer(d, table, type_with_reference(d), number_of(table, target), target);
}

static int reference_above_127(dice *d, uint64_t *table, uint64_t access)
{
    (void)access;
    uint32_t type = type_with_reference(d);
    uint64_t target = one_in(d, 2) ? CHIP_INSTANCES : one_bit(d, 7, 31) | 1;
    return new_referrer(d, table, type, target, NULL) != NULL;
}

/* Only in its low half does the word name a right instance. */
static int reference_above_2_to_32(dice *d, uint64_t *table, uint64_t access)
{
    (void)access;
    uint32_t type = type_with_reference(d);
    uint64_t *target = new_instance(d, table, dictionary[type].target, NULL);
    return target && new_referrer(d, table, type, number_of(table, target) | one_bit(d, 32, 63), target);
}

static int refers_to_type(dice *d, uint64_t *table, uint32_t type, uint32_t target_type)
{
    uint64_t *target = new_instance(d, table, target_type, NULL);
    return target && new_referrer(d, table, type, number_of(table, target), target);
}

static int reference_to_wrong_type(dice *d, uint64_t *table, uint64_t access)
{
    (void)access;
    uint32_t type = type_with_reference(d);
    uint32_t wrong = below(d, CHIP_TYPES);
    while (dictionary[wrong].above >> dictionary[type].target & 1)
        wrong = below(d, CHIP_TYPES);
    return refers_to_type(d, table, type, wrong);
}

/* A cavity's plate may be no part or item, and a shot_count's or repair's part no item. */
static int reference_to_supertype(dice *d, uint64_t *table, uint64_t access)
{
    (void)access;
    static const uint8_t referrer[] = {3, 3, 6, 7};
    static const uint8_t target[] = {0, 1, 0, 0};
    uint32_t n = below(d, sizeof referrer);
    return refers_to_type(d, table, referrer[n], target[n]);
}

/* A cavity is no plate. */
static int reference_to_itself_of_wrong_type(dice *d, uint64_t *table, uint64_t access)
{
    (void)access;
    uint64_t *cavity = new_instance(d, table, 3, NULL);
    if (!cavity)
        return 0;
    set_attribute(cavity, definition(cavity)->reference, number_of(table, cavity));
    return 1;
}

/* ---- cursors ---- */

static int one_past_the_last(dice *d, uint64_t *table, const entry_kind *of)
{
    (void)d;
    table[of->cursor] = of->count;
    return 1;
}

static int further_past_the_last(dice *d, uint64_t *table, const entry_kind *of)
{
    table[of->cursor] = of->count + 1 + (one_in(d, 2) ? below(d, 2 * CHIP_INSTANCES) : roll(d) >> 33);
    return 1;
}

/* Only in its low half is the word sound. */
static int far_past_the_last(dice *d, uint64_t *table, const entry_kind *of)
{
    table[of->cursor] = any_entry(d, of->count) | one_bit(d, 32, 63);
    return 1;
}

static int model_cursor_of_64(dice *d, uint64_t *table, uint64_t access)
{
    (void)access;
    return one_past_the_last(d, table, &entry_kinds[MODELS]);
}

static int model_cursor_above_64(dice *d, uint64_t *table, uint64_t access)
{
    (void)access;
    return further_past_the_last(d, table, &entry_kinds[MODELS]);
}

static int model_cursor_of_2_to_32(dice *d, uint64_t *table, uint64_t access)
{
    (void)access;
    return far_past_the_last(d, table, &entry_kinds[MODELS]);
}

static int schema_instance_cursor_of_16(dice *d, uint64_t *table, uint64_t access)
{
    (void)access;
    return one_past_the_last(d, table, &entry_kinds[SCHEMA_INSTANCES]);
}

static int schema_instance_cursor_above_16(dice *d, uint64_t *table, uint64_t access)
{
    (void)access;
    return further_past_the_last(d, table, &entry_kinds[SCHEMA_INSTANCES]);
}

static int schema_instance_cursor_of_2_to_32(dice *d, uint64_t *table, uint64_t access)
{
    (void)access;
    return far_past_the_last(d, table, &entry_kinds[SCHEMA_INSTANCES]);
}

static int instance_cursor_of_128(dice *d, uint64_t *table, uint64_t access)
{
    (void)access;
    return one_past_the_last(d, table, &entry_kinds[INSTANCES]);
}

static int instance_cursor_above_128(dice *d, uint64_t *table, uint64_t access)
{
    (void)access;
    return further_past_the_last(d, table, &entry_kinds[INSTANCES]);
}

static int instance_cursor_of_2_to_32(dice *d, uint64_t *table, uint64_t access)
{
    (void)access;
    return far_past_the_last(d, table, &entry_kinds[INSTANCES]);
}

/* Under RW, where the tables may differ. */
static int any_cursor_past_the_last(dice *d, state *s, uint64_t *table)
{
    settle(s, CHIP_RW);
    return one_past_the_last(d, table, &entry_kinds[below(d, ENTRY_KINDS)]);
}

static int working_cursor_alone(dice *d, state *s)
{
    return any_cursor_past_the_last(d, s, s->working);
}

static int kept_cursor_alone(dice *d, state *s)
{
    return any_cursor_past_the_last(d, s, s->kept);
}

/* ---- that the tables agree ---- */

/* Each table stays sound by itself. */
static uint64_t *one_of_two(dice *d, state *s)
{
    if (s->session.transaction == CHIP_RW)
        settle(s, one_in(d, 2) ? CHIP_NONE : CHIP_ABORTED);
    return one_in(d, 2) ? s->working : s->kept;
}

static int tables_differ_in_model(dice *d, state *s)
{
    uint64_t *table = one_of_two(d, s);
    return put_model(d, table, s->session.ro, new_entry(d, any_schema(d)));
}

static int tables_differ_in_schema_instance(dice *d, state *s)
{
    uint64_t *table = one_of_two(d, s);
    return put_schema_instance(d, table, new_entry(d, any_schema(d)), 0);
}

static int tables_differ_in_set(dice *d, state *s)
{
    uint64_t *table = one_of_two(d, s);
    uint32_t number = live_schema_instance(d, table);
    uint32_t model = number == NOWHERE
                         ? NOWHERE
                         : live_model_of(d, table, (uint32_t)(table[CHIP_SCHEMA_INSTANCE_AT(number)] >> 40));
    if (model == NOWHERE)
        return 0;
    table[CHIP_SCHEMA_INSTANCE_AT(number) + 1] ^= (uint64_t)1 << model;
    return 1;
}

static int tables_differ_in_instance(dice *d, state *s)
{
    uint64_t *table = one_of_two(d, s);
    uint64_t *instance = vacate(d, table, NULL);
    uint32_t model = live_model_of(d, table, 1);
    if (!instance || model == NOWHERE)
        return 0;
    uint64_t *other = table == s->working ? s->kept : s->working;
    if (other[instance - table] == 0)
        instance[0] = 1 + (model << 8);
    return 1;
}

/* In a plate's last value, so that of instance 127 in the last word of an entry that can differ. */
static int tables_differ_in_value(dice *d, state *s)
{
    uint64_t *table = one_of_two(d, s);
    uint64_t *plate = new_instance(d, table, 2, NULL);
    if (!plate)
        return 0;
    set_attribute(plate, 2, below(d, 9));
    memcpy(table == s->working ? s->kept : s->working, table, sizeof s->working);
    plate[3] ^= one_bit(d, 0, 31);
    return 1;
}

/* No sound table has anything there, so this breaks two sentences. */
static int tables_differ_in_last_word_of_entries(dice *d, state *s)
{
    uint64_t *table = one_of_two(d, s);
    table[CHIP_INSTANCE_AT(CHIP_INSTANCES) - 1] = one_bit(d, 0, 63);
    return 1;
}

static int differ_in_cursor(dice *d, state *s, const entry_kind *of)
{
    uint64_t *cursor = one_of_two(d, s) + of->cursor;
    *cursor = (*cursor + 1 + below(d, of->count - 1)) % of->count;
    return 1;
}

static int tables_differ_in_model_cursor(dice *d, state *s)
{
    return differ_in_cursor(d, s, &entry_kinds[MODELS]);
}

static int tables_differ_in_schema_instance_cursor(dice *d, state *s)
{
    return differ_in_cursor(d, s, &entry_kinds[SCHEMA_INSTANCES]);
}

static int tables_differ_in_instance_cursor(dice *d, state *s)
{
    return differ_in_cursor(d, s, &entry_kinds[INSTANCES]);
}

const damage table_damages[] = {
    {"working table too short", NULL, working_too_short},
    {"kept table too short", NULL, kept_too_short},
    {"both tables too short", NULL, both_too_short},
    {"a table that ends before a cursor", NULL, too_short_for_cursors},
    {"model of schema 0", model_of_schema_0, NULL},
    {"model of schema 3", model_of_schema_3, NULL},
    {"model word with a bit above the schema", model_with_bit_above, NULL},
    {"model of repository 8 or more", model_of_repository_8, NULL},
    {"schema instance of schema 0", schema_instance_of_schema_0, NULL},
    {"schema instance of schema 3", schema_instance_of_schema_3, NULL},
    {"schema instance word with a bit above the schema", schema_instance_with_bit_above, NULL},
    {"schema instance of repository 8 or more", schema_instance_of_repository_8, NULL},
    {"free schema instance with a set", free_schema_instance_with_set, NULL},
    {"two models of one name", model_named_twice, NULL},
    {"two models of one name and two schemas", model_named_twice_over_schemas, NULL},
    {"two models of one name among names of one chain", named_twice_in_a_chain, NULL},
    {"two schema instances of one name", schema_instance_named_twice, NULL},
    {"two schema instances of one name and two schemas", schema_instance_named_twice_over_schemas, NULL},
    {"set names a free model", set_names_free_model, NULL},
    {"set names a model of the other schema", set_names_model_of_other_schema, NULL},
    {"free instance with a value", free_instance_with_value, NULL},
    {"instance of a type above 9", instance_of_type_above_9, NULL},
    {"instance without a type", instance_without_type, NULL},
    {"instance of a model above 63", instance_of_model_above_63, NULL},
    {"instance of a free model", instance_of_free_model, NULL},
    {"instance of a model of the other schema", instance_of_model_of_other_schema, NULL},
    {"flag of an attribute that the type lacks", flag_of_lacking_attribute, NULL},
    {"header with a bit above the flags", header_bit_above_flags, NULL},
    {"value of 2^32 or more", value_of_2_to_32, NULL},
    {"value of an unset attribute", value_of_unset_attribute, NULL},
    {"value of an attribute that the type lacks", value_of_lacking_attribute, NULL},
    {"reference to a free instance", reference_to_free_instance, NULL},
    {"reference above 127", reference_above_127, NULL},
    {"reference of 2^32 or more", reference_above_2_to_32, NULL},
    {"reference to a wrong type", reference_to_wrong_type, NULL},
    {"reference to a supertype", reference_to_supertype, NULL},
    {"reference to itself, of a wrong type", reference_to_itself_of_wrong_type, NULL},
    {"model cursor of 64", model_cursor_of_64, NULL},
    {"model cursor above 64", model_cursor_above_64, NULL},
    {"model cursor of 2^32 or more", model_cursor_of_2_to_32, NULL},
    {"schema instance cursor of 16", schema_instance_cursor_of_16, NULL},
    {"schema instance cursor above 16", schema_instance_cursor_above_16, NULL},
    {"schema instance cursor of 2^32 or more", schema_instance_cursor_of_2_to_32, NULL},
    {"instance cursor of 128", instance_cursor_of_128, NULL},
    {"instance cursor above 128", instance_cursor_above_128, NULL},
    {"instance cursor of 2^32 or more", instance_cursor_of_2_to_32, NULL},
    {"cursor past the last in the working table alone", NULL, working_cursor_alone},
    {"cursor past the last in the kept table alone", NULL, kept_cursor_alone},
    {"tables differ in a model", NULL, tables_differ_in_model},
    {"tables differ in a schema instance", NULL, tables_differ_in_schema_instance},
    {"tables differ in a set", NULL, tables_differ_in_set},
    {"tables differ in an instance", NULL, tables_differ_in_instance},
    {"tables differ in a value", NULL, tables_differ_in_value},
    {"tables differ in the last word of the entries", NULL, tables_differ_in_last_word_of_entries},
    {"tables differ in the model cursor", NULL, tables_differ_in_model_cursor},
    {"tables differ in the schema instance cursor", NULL, tables_differ_in_schema_instance_cursor},
    {"tables differ in the instance cursor", NULL, tables_differ_in_instance_cursor},
    {NULL, NULL, NULL},
};
