/* The order is that of document 01: words, dictionary, soundness, operations; then the tray of document 02. */
#include "model.h"

#include "dictionary.h"
#include "entry_kinds.h"

#include <string.h>

#define TABLE_BYTES (CHIP_WORDS * sizeof(uint64_t))

static int has(uint64_t set, uint32_t member)
{
    return (int)(set >> member & 1);
}

static uint64_t only(uint32_t member)
{
    return (uint64_t)1 << member;
}

/* ---- Words of a table ---- */

/* "name + 2^32 * repository + 2^40 * schema", for models and schema instances. */
static uint64_t entry_word(uint32_t repository, uint32_t schema, uint32_t name)
{
    return name | (uint64_t)repository << 32 | (uint64_t)schema << 40;
}

static uint32_t repository_of(uint64_t entry)
{
    return (uint32_t)(entry >> 32 & 0xff);
}

static uint32_t schema_of(uint64_t entry)
{
    return (uint32_t)(entry >> 40);
}

/* Name and repository in one; the schema does not count. */
static uint64_t full_name_of(uint64_t entry)
{
    return entry & 0xffffffffff;
}

/* "1 + type + 2^8 * model + 2^16 * flags", for instances. A low byte of 0 gives a type above all. */
static uint32_t type_of(uint64_t header)
{
    return (uint32_t)(header & 0xff) - 1;
}

static uint32_t model_of(uint64_t header)
{
    return (uint32_t)(header >> 8 & 0xff);
}

static uint64_t flags_of(uint64_t header)
{
    return header >> 16;
}

static void set_value(uint64_t *instance, uint32_t attribute, uint32_t value)
{
    instance[0] |= only(16 + attribute);
    instance[1 + attribute] = value;
}

static void unset_value(uint64_t *instance, uint32_t attribute)
{
    instance[0] &= ~only(16 + attribute);
    instance[1 + attribute] = 0;
}

/* ---- The dictionary ---- */

static int is_subtype_of(uint32_t type, uint32_t other)
{
    return has(dictionary[type].above, other);
}

static const entity_type *definition_of(uint64_t header)
{
    return &dictionary[type_of(header)];
}

/* ---- Sound tables and a sound session ---- */

#define BUCKETS 128

/* Labels by themselves, and no name twice in a repository. The live ones of each schema go into `live`. Each is compared
 * with those of its bucket alone, which are chained by their numbers from 1. */
static int entries_sound(const uint64_t *table, const entry_kind *of, uint64_t live[3])
{
    const uint64_t *entries = table + of->at;
    uint8_t last[BUCKETS] = {0};
    uint8_t before[CHIP_MODELS + 1];
    for (uint32_t n = 0; n < of->count; n++) {
        uint64_t entry = entries[n * of->stride];
        if (entry == 0)
            continue;
        if (schema_of(entry) - 1 > 1 || repository_of(entry) >= CHIP_REPOSITORIES)
            return 0;
        uint8_t *bucket = &last[full_name_of(entry) * 0x9e3779b97f4a7c15 >> 57];
        for (uint32_t other = *bucket; other != 0; other = before[other])
            if (full_name_of(entries[(other - 1) * of->stride]) == full_name_of(entry))
                return 0;
        before[n + 1] = *bucket;
        *bucket = (uint8_t)(n + 1);
        live[schema_of(entry)] |= only(n);
    }
    return 1;
}

/* The members of a set. A free schema instance has schema 0, of which no model is. */
static int sets_sound(const uint64_t *schema_instances, const uint64_t live[3])
{
    for (uint32_t s = 0; s < CHIP_SCHEMA_INSTANCES; s++)
        if (schema_instances[2 * s + 1] & ~live[schema_of(schema_instances[2 * s])])
            return 0;
    return 1;
}

/* Where a reference that is set may lead. */
static int reference_sound(const uint64_t *table, uint64_t target, uint32_t wanted)
{
    if (target >= CHIP_INSTANCES)
        return 0;
    uint32_t type = type_of(table[CHIP_INSTANCE_AT(target)]);
    return type < CHIP_TYPES && is_subtype_of(type, wanted);
}

static int instance_sound(const uint64_t *table, const uint64_t *instance, const uint64_t live[3])
{
    uint64_t header = instance[0];
    if (header == 0)
        return (instance[1] | instance[2] | instance[3] | instance[4]) == 0;
    if (type_of(header) >= CHIP_TYPES || model_of(header) >= CHIP_MODELS)
        return 0;
    const entity_type *type = definition_of(header);
    uint64_t flags = flags_of(header);
    if (flags >> type->attributes || !has(live[type->schema], model_of(header)))
        return 0;
    uint64_t excess = 0; /* of values that are set at 2^32, of others at 1 */
    for (uint32_t k = 0; k < CHIP_ATTRIBUTES; k++)
        excess |= instance[1 + k] >> (has(flags, k) ? 32 : 0);
    if (excess)
        return 0;
    return !has(flags, type->reference) || reference_sound(table, instance[1 + type->reference], type->target);
}

static int cursors_sound(const uint64_t *table)
{
    for (int k = 0; k < ENTRY_KINDS; k++)
        if (table[entry_kinds[k].cursor] >= entry_kinds[k].count)
            return 0;
    return 1;
}

static int table_sound(const uint64_t *table)
{
    uint64_t live[3] = {0};
    uint64_t unused[3] = {0};
    if (!cursors_sound(table) || !entries_sound(table, &entry_kinds[MODELS], live) ||
        !entries_sound(table, &entry_kinds[SCHEMA_INSTANCES], unused) ||
        !sets_sound(table + CHIP_SCHEMA_INSTANCE_AT(0), live))
        return 0;
    for (uint32_t i = 0; i < CHIP_INSTANCES; i++)
        if (!instance_sound(table, table + CHIP_INSTANCE_AT(i), live))
            return 0;
    return 1;
}

/* The log: as many events as are counted, each with a refusal that is recorded and any place, and blank ones behind. */
static int events_sound(const chip_session *session)
{
    if (session->count > CHIP_EVENTS)
        return 0;
    for (uint32_t e = 0; e < CHIP_EVENTS; e++) {
        const chip_event *event = &session->events[e];
        if (e < session->count ? event->refusal < CHIP_FN_NAVL || event->refusal > CHIP_NO_ROOM ||
                                     event->place > CHIP_PLACE_REFERENCE
                               : (event->op | event->refusal | event->place) != 0)
            return 0;
    }
    return 1;
}

/* The access sets: apart from each other, of models that are live and can be reached, and as the transaction allows. */
static int access_sound(const chip_session *session, const uint64_t *working)
{
    uint64_t access = session->ro | session->rw;
    if (session->ro & session->rw)
        return 0;
    if (session->rw && session->transaction != CHIP_RW)
        return 0;
    if (access && session->transaction != CHIP_RW && session->transaction != CHIP_RO)
        return 0;
    for (uint32_t m = 0; m < CHIP_MODELS; m++)
        if (has(access, m) && (working[m] == 0 || !has(session->repositories, repository_of(working[m]))))
            return 0;
    return 1;
}

/* All that the session holds but its access. */
static int session_sound(const chip_session *session)
{
    if (session->opened > 1 || session->recording > 1 || session->transaction > CHIP_ABORTED ||
        session->repositories >> CHIP_REPOSITORIES)
        return 0;
    if (!session->opened && (session->recording || session->transaction || session->repositories || session->count))
        return 0;
    return events_sound(session);
}

static int sound(const chip_session *session, const uint64_t *working, size_t working_words,
                 const uint64_t *kept, size_t kept_words)
{
    if (working_words < CHIP_WORDS || kept_words < CHIP_WORDS)
        return 0;
    if (!session_sound(session) || !table_sound(working) || !access_sound(session, working))
        return 0;
    return session->transaction == CHIP_RW ? table_sound(kept) : memcmp(working, kept, TABLE_BYTES) == 0;
}

/* ---- Operations ----
 *
 * Each returns its refusal, all of which come before the first change. */

/* A refusal and its place, in a byte each; a refusal by itself has place 0, and 0 is done. */
typedef uint32_t outcome;

static outcome refuse(uint32_t refusal, uint32_t place)
{
    return refusal | place << 8;
}

typedef struct machine {
    chip_session *session;
    uint64_t *working;
    uint64_t *kept;
    uint32_t value;
} machine;

static int is_live_model(const machine *on, uint32_t model)
{
    return model < CHIP_MODELS && on->working[model] != 0;
}

static int is_live_schema_instance(const machine *on, uint32_t number)
{
    return number < CHIP_SCHEMA_INSTANCES && on->working[CHIP_SCHEMA_INSTANCE_AT(number)] != 0;
}

static int is_live_instance(const machine *on, uint32_t number)
{
    return number < CHIP_INSTANCES && on->working[CHIP_INSTANCE_AT(number)] != 0;
}

static uint64_t *instance_at(const machine *on, uint32_t number)
{
    return on->working + CHIP_INSTANCE_AT(number);
}

static int is_open(const machine *on, uint32_t repository)
{
    return has(on->session->repositories, repository);
}

static void take_back_changes(machine *on)
{
    if (on->session->transaction == CHIP_RW)
        memcpy(on->working, on->kept, TABLE_BYTES);
}

static void keep_changes(machine *on)
{
    if (on->session->transaction == CHIP_RW)
        memcpy(on->kept, on->working, TABLE_BYTES);
}

static void end_all_access(machine *on)
{
    on->session->ro = 0;
    on->session->rw = 0;
}

static void leave_transaction(machine *on, uint32_t state)
{
    end_all_access(on);
    on->session->transaction = state;
}

static outcome open_session(machine *on)
{
    on->session->opened = 1;
    on->session->recording = 1;
    return CHIP_DONE;
}

static outcome close_session(machine *on)
{
    take_back_changes(on);
    *on->session = (chip_session){0};
    return CHIP_DONE;
}

static outcome open_repository(machine *on, uint32_t repository)
{
    if (repository >= CHIP_REPOSITORIES)
        return refuse(CHIP_RP_NEXS, CHIP_PLACE_A);
    if (is_open(on, repository))
        return refuse(CHIP_RP_OPN, CHIP_PLACE_A);
    on->session->repositories |= only(repository);
    return CHIP_DONE;
}

/* TR_EAB TR_EXS, of 4, 5 and 6. */
static outcome refusal_in_transaction(const machine *on)
{
    switch (on->session->transaction) {
    case CHIP_NONE: return CHIP_DONE;
    case CHIP_ABORTED: return CHIP_TR_EAB;
    default: return CHIP_TR_EXS;
    }
}

/* TR_EAB and the one for none, of 7, 8, 9 and 13. */
static outcome refusal_out_of_transaction(const machine *on, outcome none)
{
    switch (on->session->transaction) {
    case CHIP_NONE: return none;
    case CHIP_ABORTED: return CHIP_TR_EAB;
    default: return CHIP_DONE;
    }
}

static outcome close_repository(machine *on, uint32_t repository)
{
    outcome refusal = refusal_in_transaction(on);
    if (refusal)
        return refusal;
    if (repository >= CHIP_REPOSITORIES)
        return refuse(CHIP_RP_NEXS, CHIP_PLACE_A);
    if (!is_open(on, repository))
        return refuse(CHIP_RP_NOPN, CHIP_PLACE_A);
    on->session->repositories &= ~only(repository);
    return CHIP_DONE;
}

static outcome start_transaction(machine *on, uint32_t mode)
{
    outcome refusal = refusal_in_transaction(on);
    if (refusal)
        return refusal;
    on->session->transaction = mode;
    return CHIP_DONE;
}

static outcome commit(machine *on)
{
    outcome refusal = refusal_out_of_transaction(on, CHIP_TR_NEXS);
    if (refusal)
        return refusal;
    if (on->session->transaction == CHIP_RO)
        return CHIP_TR_NRW;
    keep_changes(on);
    return CHIP_DONE;
}

static outcome abort_changes(machine *on)
{
    outcome refusal = refusal_out_of_transaction(on, CHIP_TR_NEXS);
    if (refusal)
        return refusal;
    if (on->session->transaction == CHIP_RO)
        return CHIP_TR_NRW;
    take_back_changes(on);
    end_all_access(on);
    return CHIP_DONE;
}

static outcome end_transaction_commit(machine *on)
{
    outcome refusal = refusal_out_of_transaction(on, CHIP_TR_NEXS);
    if (refusal)
        return refusal;
    keep_changes(on);
    leave_transaction(on, CHIP_NONE);
    return CHIP_DONE;
}

static outcome end_transaction_abort(machine *on)
{
    if (on->session->transaction == CHIP_NONE)
        return CHIP_TR_NEXS;
    take_back_changes(on);
    leave_transaction(on, CHIP_NONE);
    return CHIP_DONE;
}

static outcome start_recording(machine *on)
{
    on->session->recording = 1;
    on->value = 1;
    return CHIP_DONE;
}

static outcome stop_recording(machine *on)
{
    on->value = on->session->recording;
    on->session->recording = 0;
    return CHIP_DONE;
}

static outcome storage_fault(machine *on)
{
    outcome refusal = refusal_out_of_transaction(on, CHIP_TR_NAVL);
    if (refusal)
        return refusal;
    take_back_changes(on);
    leave_transaction(on, CHIP_ABORTED);
    return CHIP_DONE;
}

/* From the cursor on, going round once; the count if every entry is live. This and what follows is inline so that each
 * kind has loops of its own. */
static inline uint32_t first_free(const uint64_t *table, const entry_kind *of)
{
    uint32_t cursor = (uint32_t)table[of->cursor];
    const uint64_t *entry = table + of->at + cursor * of->stride;
    for (uint32_t n = cursor; n < of->count; n++, entry += of->stride)
        if (*entry == 0)
            return n;
    entry = table + of->at;
    for (uint32_t n = 0; n < cursor; n++, entry += of->stride)
        if (*entry == 0)
            return n;
    return of->count;
}

/* NO_ROOM of 20, 30 and 40, or what they do; `first` is the first word of the new entry. */
static inline outcome create(machine *on, const entry_kind *of, uint64_t first, uint32_t full)
{
    uint32_t number = first_free(on->working, of);
    if (number == of->count)
        return refuse(CHIP_NO_ROOM, full);
    on->working[of->at + number * of->stride] = first;
    on->working[of->cursor] = (number + 1) % of->count;
    on->value = number;
    return CHIP_DONE;
}

/* A free entry has the name 0 of repository 0. */
static inline int has_name_of(const uint64_t *table, const entry_kind *of, uint64_t label)
{
    const uint64_t *entry = table + of->at;
    for (uint32_t n = 0; n < of->count; n++, entry += of->stride)
        if (full_name_of(*entry) == full_name_of(label) && *entry != 0)
            return 1;
    return 0;
}

/* A new model or schema instance; a taken name comes before NO_ROOM. */
static inline outcome create_entry(machine *on, const entry_kind *of, uint32_t taken, uint32_t full, uint32_t repository,
                                   uint32_t schema, uint32_t name)
{
    if (repository >= CHIP_REPOSITORIES)
        return refuse(CHIP_RP_NEXS, CHIP_PLACE_A);
    if (!is_open(on, repository))
        return refuse(CHIP_RP_NOPN, CHIP_PLACE_A);
    if (schema != 1 && schema != 2)
        return refuse(CHIP_SD_NDEF, CHIP_PLACE_B);
    uint64_t created = entry_word(repository, schema, name);
    if (has_name_of(on->working, of, created))
        return refuse(taken, CHIP_PLACE_C);
    return create(on, of, created, full);
}

static outcome create_model(machine *on, uint32_t repository, uint32_t schema, uint32_t name)
{
    return create_entry(on, &entry_kinds[MODELS], CHIP_MO_DUP, CHIP_PLACE_MODELS, repository, schema, name);
}

static outcome create_schema_instance(machine *on, uint32_t repository, uint32_t schema, uint32_t name)
{
    return create_entry(on, &entry_kinds[SCHEMA_INSTANCES], CHIP_SI_DUP, CHIP_PLACE_SCHEMA_INSTANCES, repository, schema,
                        name);
}

/* A set of instance numbers. */
typedef struct instance_set {
    uint64_t half[2];
} instance_set;

static int holds(const instance_set *set, uint64_t number)
{
    return has(set->half[number / 64], number % 64);
}

static void include(instance_set *set, uint32_t number)
{
    set->half[number / 64] |= only(number % 64);
}

static int refers_into(const uint64_t *instance, const instance_set *going)
{
    if (instance[0] == 0)
        return 0;
    uint32_t reference = definition_of(instance[0])->reference;
    return has(flags_of(instance[0]), reference) && holds(going, instance[1 + reference]);
}

/* MX_NRW if an instance outside those that go refers into them, and its model has no RW access. Else they go, and
 * references to them are unset. */
static outcome delete_instances(machine *on, const instance_set *going)
{
    instance_set referrers = {{0}};
    for (uint32_t i = 0; i < CHIP_INSTANCES; i++) {
        const uint64_t *instance = instance_at(on, i);
        if (holds(going, i) || !refers_into(instance, going))
            continue;
        if (!has(on->session->rw, model_of(instance[0])))
            return refuse(CHIP_MX_NRW, CHIP_PLACE_REFERENCE);
        include(&referrers, i);
    }
    for (uint32_t i = 0; i < CHIP_INSTANCES; i++) {
        uint64_t *instance = instance_at(on, i);
        if (holds(going, i))
            memset(instance, 0, 5 * sizeof *instance);
        else if (holds(&referrers, i))
            unset_value(instance, definition_of(instance[0])->reference);
    }
    return CHIP_DONE;
}

static outcome delete_model(machine *on, uint32_t model)
{
    if (!is_live_model(on, model))
        return refuse(CHIP_MO_NEXS, CHIP_PLACE_A);
    if (!has(on->session->rw, model))
        return refuse(CHIP_MX_NRW, CHIP_PLACE_A);
    instance_set going = {{0}};
    for (uint32_t i = 0; i < CHIP_INSTANCES; i++)
        if (is_live_instance(on, i) && model_of(*instance_at(on, i)) == model)
            include(&going, i);
    outcome refusal = delete_instances(on, &going);
    if (refusal)
        return refusal;
    on->working[model] = 0;
    for (uint32_t s = 0; s < CHIP_SCHEMA_INSTANCES; s++)
        on->working[CHIP_SCHEMA_INSTANCE_AT(s) + 1] &= ~only(model);
    on->session->rw &= ~only(model);
    return CHIP_DONE;
}

static int model_is_open(const machine *on, uint32_t model)
{
    return is_open(on, repository_of(on->working[model]));
}

static int has_access(const machine *on, uint32_t model)
{
    return has(on->session->ro | on->session->rw, model);
}

/* 22 and 23; a model has one access at most, so the order of MX_RO and MX_RW does not matter. */
static outcome start_access(machine *on, uint32_t model, uint64_t *access)
{
    if (!is_live_model(on, model))
        return refuse(CHIP_MO_NEXS, CHIP_PLACE_A);
    if (!model_is_open(on, model))
        return refuse(CHIP_RP_NOPN, CHIP_PLACE_A);
    if (has(on->session->ro, model))
        return refuse(CHIP_MX_RO, CHIP_PLACE_A);
    if (has(on->session->rw, model))
        return refuse(CHIP_MX_RW, CHIP_PLACE_A);
    *access |= only(model);
    return CHIP_DONE;
}

static outcome end_access(machine *on, uint32_t model)
{
    if (!is_live_model(on, model))
        return refuse(CHIP_MO_NEXS, CHIP_PLACE_A);
    if (!has_access(on, model))
        return refuse(CHIP_MX_NDEF, CHIP_PLACE_A);
    on->session->ro &= ~only(model);
    on->session->rw &= ~only(model);
    return CHIP_DONE;
}

/* From RO access to RW. A model with access is one of an open repository, so that is not asked. */
static outcome promote(machine *on, uint32_t model)
{
    if (!is_live_model(on, model))
        return refuse(CHIP_MO_NEXS, CHIP_PLACE_A);
    if (!has_access(on, model))
        return refuse(CHIP_MX_NDEF, CHIP_PLACE_A);
    if (has(on->session->rw, model))
        return refuse(CHIP_MX_RW, CHIP_PLACE_A);
    on->session->ro &= ~only(model);
    on->session->rw |= only(model);
    return CHIP_DONE;
}

/* SI_NEXS RP_NOPN, of 31 to 33. */
static outcome schema_instance_refusal(const machine *on, uint32_t number)
{
    if (!is_live_schema_instance(on, number))
        return refuse(CHIP_SI_NEXS, CHIP_PLACE_A);
    if (!is_open(on, repository_of(on->working[CHIP_SCHEMA_INSTANCE_AT(number)])))
        return refuse(CHIP_RP_NOPN, CHIP_PLACE_A);
    return CHIP_DONE;
}

static outcome delete_schema_instance(machine *on, uint32_t number)
{
    outcome refusal = schema_instance_refusal(on, number);
    if (refusal)
        return refusal;
    on->working[CHIP_SCHEMA_INSTANCE_AT(number)] = 0;
    on->working[CHIP_SCHEMA_INSTANCE_AT(number) + 1] = 0;
    return CHIP_DONE;
}

/* How many models a set has. */
static uint32_t members(uint64_t set)
{
    uint32_t count = 0;
    for (; set != 0; set &= set - 1)
        count++;
    return count;
}

static outcome add_model(machine *on, uint32_t number, uint32_t model)
{
    outcome refusal = schema_instance_refusal(on, number);
    if (refusal)
        return refusal;
    if (!is_live_model(on, model))
        return refuse(CHIP_MO_NEXS, CHIP_PLACE_B);
    if (!model_is_open(on, model))
        return refuse(CHIP_RP_NOPN, CHIP_PLACE_B);
    uint64_t *schema_instance = on->working + CHIP_SCHEMA_INSTANCE_AT(number);
    if (schema_of(on->working[model]) != schema_of(schema_instance[0]))
        return refuse(CHIP_MO_NDEQ, CHIP_PLACE_B);
    schema_instance[1] |= only(model);
    on->value = members(schema_instance[1]);
    return CHIP_DONE;
}

static outcome remove_model(machine *on, uint32_t number, uint32_t model)
{
    outcome refusal = schema_instance_refusal(on, number);
    if (refusal)
        return refusal;
    if (!is_live_model(on, model))
        return refuse(CHIP_MO_NEXS, CHIP_PLACE_B);
    uint64_t *set = on->working + CHIP_SCHEMA_INSTANCE_AT(number) + 1;
    if (!has(*set, model))
        return refuse(CHIP_MO_NVLD, CHIP_PLACE_B);
    *set &= ~only(model);
    on->value = members(*set);
    return CHIP_DONE;
}

static outcome create_instance(machine *on, uint32_t model, uint32_t type)
{
    if (!is_live_model(on, model))
        return refuse(CHIP_MO_NEXS, CHIP_PLACE_A);
    if (!has(on->session->rw, model))
        return refuse(CHIP_MX_NRW, CHIP_PLACE_A);
    if (type >= CHIP_TYPES)
        return refuse(CHIP_ED_NDEF, CHIP_PLACE_B);
    if (dictionary[type].schema != schema_of(on->working[model]))
        return refuse(CHIP_ED_NVLD, CHIP_PLACE_B);
    return create(on, &entry_kinds[INSTANCES], 1 + type + (model << 8), CHIP_PLACE_INSTANCES);
}

/* EI_NEXS MX_NRW, of 41, 44 and 45. */
static outcome write_refusal(const machine *on, uint32_t number)
{
    if (!is_live_instance(on, number))
        return refuse(CHIP_EI_NEXS, CHIP_PLACE_A);
    if (!has(on->session->rw, model_of(*instance_at(on, number))))
        return refuse(CHIP_MX_NRW, CHIP_PLACE_A);
    return CHIP_DONE;
}

static outcome delete_instance(machine *on, uint32_t number)
{
    outcome refusal = write_refusal(on, number);
    if (refusal)
        return refusal;
    instance_set going = {{0}};
    include(&going, number);
    return delete_instances(on, &going);
}

static int has_attribute(const uint64_t *instance, uint32_t attribute)
{
    return attribute < definition_of(instance[0])->attributes;
}

/* EI_NEXS RP_NOPN AT_NDEF, of 42 and 43. */
static outcome read_refusal(const machine *on, uint32_t number, uint32_t attribute)
{
    if (!is_live_instance(on, number))
        return refuse(CHIP_EI_NEXS, CHIP_PLACE_A);
    const uint64_t *instance = instance_at(on, number);
    if (!model_is_open(on, model_of(instance[0])))
        return refuse(CHIP_RP_NOPN, CHIP_PLACE_A);
    if (!has_attribute(instance, attribute))
        return refuse(CHIP_AT_NDEF, CHIP_PLACE_B);
    return CHIP_DONE;
}

/* The model of what was read has RO access now, unless it has RW. */
static void wake(machine *on, uint32_t model)
{
    on->session->ro |= only(model) & ~on->session->rw;
}

static outcome get_attribute(machine *on, uint32_t number, uint32_t attribute)
{
    outcome refusal = read_refusal(on, number, attribute);
    if (refusal)
        return refusal;
    const uint64_t *instance = instance_at(on, number);
    if (!has(flags_of(instance[0]), attribute))
        return refuse(CHIP_VA_NSET, CHIP_PLACE_B);
    on->value = (uint32_t)instance[1 + attribute];
    wake(on, model_of(instance[0]));
    return CHIP_DONE;
}

static outcome test_attribute(machine *on, uint32_t number, uint32_t attribute)
{
    outcome refusal = read_refusal(on, number, attribute);
    if (refusal)
        return refusal;
    const uint64_t *instance = instance_at(on, number);
    on->value = (uint32_t)has(flags_of(instance[0]), attribute);
    wake(on, model_of(instance[0]));
    return CHIP_DONE;
}

/* One model, or two that some set has: any live schema instance will do, and a free one has the empty set. */
static int share_a_set(const machine *on, uint32_t model, uint32_t other)
{
    uint64_t both = only(model) | only(other);
    if (model == other)
        return 1;
    for (uint32_t s = 0; s < CHIP_SCHEMA_INSTANCES; s++)
        if ((on->working[CHIP_SCHEMA_INSTANCE_AT(s) + 1] & both) == both)
            return 1;
    return 0;
}

/* VA_NVLD VT_NVLD MO_NVLD, of 44 for a reference. */
static outcome reference_refusal(const machine *on, uint64_t from, uint32_t target)
{
    if (!is_live_instance(on, target))
        return refuse(CHIP_VA_NVLD, CHIP_PLACE_C);
    uint64_t to = *instance_at(on, target);
    if (!is_subtype_of(type_of(to), definition_of(from)->target))
        return refuse(CHIP_VT_NVLD, CHIP_PLACE_C);
    if (!share_a_set(on, model_of(from), model_of(to)))
        return refuse(CHIP_MO_NVLD, CHIP_PLACE_C);
    return CHIP_DONE;
}

static outcome put_attribute(machine *on, uint32_t number, uint32_t attribute, uint32_t value)
{
    outcome refusal = write_refusal(on, number);
    if (refusal)
        return refusal;
    uint64_t *instance = instance_at(on, number);
    if (!has_attribute(instance, attribute))
        return refuse(CHIP_AT_NDEF, CHIP_PLACE_B);
    if (attribute == definition_of(instance[0])->reference)
        refusal = reference_refusal(on, instance[0], value);
    if (refusal)
        return refusal;
    set_value(instance, attribute, value);
    return CHIP_DONE;
}

static outcome unset_attribute(machine *on, uint32_t number, uint32_t attribute)
{
    outcome refusal = write_refusal(on, number);
    if (refusal)
        return refusal;
    uint64_t *instance = instance_at(on, number);
    if (!has_attribute(instance, attribute))
        return refuse(CHIP_AT_NDEF, CHIP_PLACE_B);
    unset_value(instance, attribute);
    return CHIP_DONE;
}

static outcome subtype_test(machine *on, uint32_t type, uint32_t other)
{
    if (type >= CHIP_TYPES)
        return refuse(CHIP_ED_NDEF, CHIP_PLACE_A);
    if (other >= CHIP_TYPES)
        return refuse(CHIP_ED_NDEF, CHIP_PLACE_B);
    if (dictionary[type].schema != dictionary[other].schema)
        return refuse(CHIP_ED_NDEQ, CHIP_PLACE_B);
    on->value = (uint32_t)is_subtype_of(type, other);
    return CHIP_DONE;
}

/* ---- The order of the checks ---- */

#define FROM_TO(first, last) (((uint64_t)2 << (last)) - ((uint64_t)1 << (first)))

/* Bit n for operation n. */
#define LISTED (FROM_TO(1, 13) | FROM_TO(20, 25) | FROM_TO(30, 33) | FROM_TO(40, 46))
#define IN_TRANSACTION FROM_TO(20, 45)
#define WRITERS \
    (FROM_TO(20, 21) | FROM_TO(23, 23) | FROM_TO(25, 25) | FROM_TO(30, 33) | FROM_TO(40, 41) | FROM_TO(44, 45))

/* What is asked of every call, and the transaction of 20 to 45. */
static outcome general_refusal(const chip_session *session, uint32_t op)
{
    if (op > CHIP_SUBTYPE_TEST || !has(LISTED, op))
        return CHIP_FN_NAVL;
    if (op == CHIP_OPEN_SESSION)
        return session->opened ? CHIP_SS_OPN : CHIP_DONE;
    if (!session->opened)
        return CHIP_SS_NOPN;
    if (!has(IN_TRANSACTION, op))
        return CHIP_DONE;
    if (session->transaction == CHIP_ABORTED)
        return CHIP_TR_EAB;
    if (session->transaction == CHIP_NONE)
        return CHIP_TR_NAVL;
    if (session->transaction == CHIP_RO && has(WRITERS, op))
        return CHIP_TR_NRW;
    return CHIP_DONE;
}

static outcome perform(machine *on, uint32_t op, uint32_t a, uint32_t b, uint32_t c)
{
    outcome refusal = general_refusal(on->session, op);
    if (refusal)
        return refusal;
    switch (op) {
    case CHIP_OPEN_SESSION: return open_session(on);
    case CHIP_CLOSE_SESSION: return close_session(on);
    case CHIP_OPEN_REPOSITORY: return open_repository(on, a);
    case CHIP_CLOSE_REPOSITORY: return close_repository(on, a);
    case CHIP_START_RW: return start_transaction(on, CHIP_RW);
    case CHIP_START_RO: return start_transaction(on, CHIP_RO);
    case CHIP_COMMIT: return commit(on);
    case CHIP_ABORT: return abort_changes(on);
    case CHIP_END_COMMIT: return end_transaction_commit(on);
    case CHIP_END_ABORT: return end_transaction_abort(on);
    case CHIP_RECORDING_ON: return start_recording(on);
    case CHIP_RECORDING_OFF: return stop_recording(on);
    case CHIP_STORAGE_FAULT: return storage_fault(on);
    case CHIP_CREATE_MODEL: return create_model(on, a, b, c);
    case CHIP_DELETE_MODEL: return delete_model(on, a);
    case CHIP_RO_ACCESS: return start_access(on, a, &on->session->ro);
    case CHIP_RW_ACCESS: return start_access(on, a, &on->session->rw);
    case CHIP_END_ACCESS: return end_access(on, a);
    case CHIP_PROMOTE: return promote(on, a);
    case CHIP_CREATE_SCHEMA_INSTANCE: return create_schema_instance(on, a, b, c);
    case CHIP_DELETE_SCHEMA_INSTANCE: return delete_schema_instance(on, a);
    case CHIP_ADD_MODEL: return add_model(on, a, b);
    case CHIP_REMOVE_MODEL: return remove_model(on, a, b);
    case CHIP_CREATE_INSTANCE: return create_instance(on, a, b);
    case CHIP_DELETE_INSTANCE: return delete_instance(on, a);
    case CHIP_GET: return get_attribute(on, a, b);
    case CHIP_TEST: return test_attribute(on, a, b);
    case CHIP_PUT: return put_attribute(on, a, b, c);
    case CHIP_UNSET: return unset_attribute(on, a, b);
    default: return subtype_test(on, a, b);
    }
}

/* One event more; a full log loses its oldest. */
static void record_event(chip_session *session, uint32_t op, outcome refusal)
{
    if (session->count == CHIP_EVENTS) {
        session->count--;
        memmove(session->events, session->events + 1, session->count * sizeof *session->events);
    }
    session->events[session->count++] = (chip_event){op, (uint8_t)refusal, (uint8_t)(refusal >> 8)};
}

/* An operation on a sound state, with the event of its refusal. */
static outcome step(machine *on, uint32_t op, uint32_t a, uint32_t b, uint32_t c)
{
    outcome refusal = perform(on, op, a, b, c);
    if (refusal && on->session->recording)
        record_event(on->session, op, refusal);
    return refusal;
}

chip_answer model_core(uint32_t op, uint32_t a, uint32_t b, uint32_t c, chip_session session,
                       uint64_t *working, size_t working_words,
                       uint64_t *kept, size_t kept_words)
{
    (void)working_words;
    (void)kept_words;
    machine on = {&session, working, kept, 0};
    outcome refusal = step(&on, op, a, b, c);
    return (chip_answer){refusal & 0xff, refusal >> 8, on.value, session};
}

chip_answer model_call(uint32_t op, uint32_t a, uint32_t b, uint32_t c, chip_session session,
                       uint64_t *working, size_t working_words,
                       uint64_t *kept, size_t kept_words)
{
    if (!sound(&session, working, working_words, kept, kept_words))
        return (chip_answer){CHIP_SY_ERR, CHIP_PLACE_NONE, 0, session};
    return model_core(op, a, b, c, session, working, working_words, kept, kept_words);
}

/* ---- A whole tray ---- */

/* Each order leaves a sound state sound, so that it is not tested again. */
static void follow(machine *on, const chip_order *orders, size_t count, chip_result *answers)
{
    for (size_t n = 0; n < count; n++) {
        on->value = 0;
        outcome refusal = step(on, orders[n].op, orders[n].a, orders[n].b, orders[n].c);
        answers[n] = (chip_result){refusal & 0xff, refusal >> 8, on->value};
    }
}

/* Each order leaves an unsound state as it is. */
static void refuse_all(size_t count, chip_result *answers)
{
    for (size_t n = 0; n < count; n++)
        answers[n] = (chip_result){CHIP_SY_ERR, CHIP_PLACE_NONE, 0};
}

chip_answer model_tray(const chip_order *orders, size_t count, chip_result *answers, size_t places,
                       chip_session session,
                       uint64_t *working, size_t working_words,
                       uint64_t *kept, size_t kept_words)
{
    machine on = {&session, working, kept, 0};
    if (places < count)
        return (chip_answer){CHIP_SY_ERR, CHIP_PLACE_NONE, 0, session};
    if (sound(&session, working, working_words, kept, kept_words))
        follow(&on, orders, count, answers);
    else
        refuse_all(count, answers);
    return (chip_answer){CHIP_DONE, CHIP_PLACE_NONE, 0, session};
}
