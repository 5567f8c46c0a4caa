/* The chip library: storage for a data chip bolted to an injection mould, after ISO 10303-22 as narrowed for this chip.
 * docs/CHIP.md is the manual: every word of a table, every operation with its refusals in order.
 *
 * The archive has two functions: chip_call is for one operation, chip_tray for a row of them. Both take every operation
 * number, all arguments, any bits in the session and tables and rows of any length and content, and always return; nothing
 * is the caller's duty to test. The functions at the end of this file are inline: a chip in one struct, and names for
 * numbers.
 *
 * What the caller owes: `working` and `kept` point at `working_words` and `kept_words` words that may be read and written,
 * each at a multiple of 8 bytes; for a tray, `orders` at `count` orders that may be read and `answers` at `places` results
 * that may be read and written, each at a multiple of 4 bytes. No two of these overlap. A null pointer with length 0 is
 * taken. Nothing else.
 *
 * A fresh chip is two tables of CHIP_WORDS zero words and a session of zero bytes. Between calls the caller keeps the
 * session that the last answer holds, after a read too, since that may have given access. The kept table is what a chip
 * holds that lost power: to go on from one, copy it to the working table and begin with a session of zero bytes
 * (chip_restart).
 *
 * Cost: no memory is asked for, no file is touched, nothing is kept between calls. A call or a tray takes less than 2 KB of
 * stack on x86-64, besides the session and the answer in the caller's frame, whatever is asked: no function in it calls
 * itself. The time of a call has a bound: every loop is over the entries of a table. On a full chip most calls spend more
 * than nine tenths of it on the test of soundness. A tray makes that test once, so its time is about that of one test and
 * of its operations alone. docs/BENCH.md has the times.
 *
 * Threads: there is no global state, so calls on different chips may run at the same time, in an interrupt too. Two calls
 * on one chip may not: the later one needs the session of the earlier. A tray counts as a call in this; two that run at the
 * same time may share their orders, not their answers.
 *
 * Power: what is proved is what a call or a tray leaves when it returns. CHIP_COMMIT and CHIP_END_COMMIT copy the words to
 * the kept table in no stated order, so power that goes in the middle may leave a kept table that is neither the old nor
 * the new. No other operation writes the kept table. A host that must survive this can hold two areas for kept tables and a
 * mark that names the whole one: after a commit, or a tray with one in it, has returned, copy the kept table to the other
 * area, and change the mark last. A test at the start, CHIP_OPEN_SESSION after chip_restart, tells most of the damage and
 * not all: CHIP_SY_ERR says that the table is not sound, but one that mixes words of two commits can be sound. What the
 * memory itself does then is not proved here.
 *
 * Link with libchip.a, which needs nothing but memcpy and memmove of the C library. The proof is about the code before it
 * was compiled: docs/PROMISES.md says what has to be believed besides. */
#ifndef CHIP_H
#define CHIP_H

#include <stddef.h>
#include <stdint.h>

/* The edition counts the change requests that are in; 0 is the base. The number is 10000 * major + 100 * minor + patch. */
#define CHIP_EDITION 5
#define CHIP_VERSION "0.6.0"
#define CHIP_VERSION_NUMBER 600

#ifdef __cplusplus
extern "C" {
#endif

/* ---- the tables ----
 *
 * What a table has beyond CHIP_WORDS words is left alone; one with fewer is CHIP_SY_ERR.
 *
 *   model m              at m            name + 2^32 * repository + 2^40 * schema; 0 if free
 *   schema instance s    at 64 + 2 s     a word like a model's, then a set: bit m says that it has model m
 *   instance i           at 96 + 5 i     1 + type + 2^8 * model + 2^16 * flags, then four values; five zeros if free
 *   the three cursors    at 736 to 738   of models, schema instances, instances: the number that is tried first
 *
 * Flag k of an instance says that its attribute k is set; the word of an attribute that is not set is 0.
 *
 * A creation looks for a free number from its cursor on, at 0 again after the last, and takes the first that it meets. Then
 * the cursor stands one past it, or at 0 after the last. So creations go over all entries in turn, and a number that was
 * freed comes again when the round reaches it. A deletion moves no cursor; a commit keeps them and an abort brings them back,
 * like every other word. A cursor that is not below the count of its entries is CHIP_SY_ERR, in either table.
 *
 * Beside edition 2: tables had 736 words, and a creation took the lowest free number. A chip of that time is taken with
 * three words of 0 behind the 736 of each table. */
#define CHIP_WORDS 739

#define CHIP_REPOSITORIES 8      /* 0 to 7, always known */
#define CHIP_MODELS 64           /* entries of each kind */
#define CHIP_SCHEMA_INSTANCES 16
#define CHIP_INSTANCES 128
#define CHIP_TYPES 10            /* 0 to 9; 0 to 7 are of schema 1, 8 and 9 of schema 2 */
#define CHIP_ATTRIBUTES 4        /* value words of an instance */

#define CHIP_MODEL_AT(m) (m)
#define CHIP_SCHEMA_INSTANCE_AT(s) (64 + 2 * (s))
#define CHIP_INSTANCE_AT(i) (96 + 5 * (i))

#define CHIP_MODEL_CURSOR 736
#define CHIP_SCHEMA_INSTANCE_CURSOR 737
#define CHIP_INSTANCE_CURSOR 738

/* ---- the dictionary ----
 *
 * Inherited attributes come first, so CHIP_ITEM_NUMBER is the number of a plate too. A reference has the name of the type
 * that it leads to, and its value is the number of an instance. */
enum chip_type {
    CHIP_ITEM = 0,
    CHIP_PART = 1,       /* an item */
    CHIP_PLATE = 2,      /* a part */
    CHIP_CAVITY = 3,     /* a part */
    CHIP_ASSEMBLY = 4,   /* an item */
    CHIP_EVENT = 5,
    CHIP_SHOT_COUNT = 6, /* an event */
    CHIP_REPAIR = 7,     /* an event */
    CHIP_READING = 8,
    CHIP_WEAR = 9        /* a reading */
};

enum chip_attribute {
    CHIP_ITEM_NUMBER = 0,
    CHIP_PART_NUMBER = 0,
    CHIP_PART_MASS = 1,
    CHIP_PLATE_NUMBER = 0,
    CHIP_PLATE_MASS = 1,
    CHIP_PLATE_THICKNESS = 2,
    CHIP_CAVITY_NUMBER = 0,
    CHIP_CAVITY_MASS = 1,
    CHIP_CAVITY_PLATE = 2,
    CHIP_ASSEMBLY_NUMBER = 0,
    CHIP_ASSEMBLY_ITEM = 1,
    CHIP_EVENT_DAY = 0,
    CHIP_SHOT_COUNT_DAY = 0,
    CHIP_SHOT_COUNT_PART = 1,
    CHIP_SHOT_COUNT_SHOTS = 2,
    CHIP_REPAIR_DAY = 0,
    CHIP_REPAIR_PART = 1,
    CHIP_READING_VALUE = 0,
    CHIP_WEAR_VALUE = 0,
    CHIP_WEAR_READING = 1
};

/* ---- the session ---- */

/* chip_session.transaction */
#define CHIP_NONE 0
#define CHIP_RO 1
#define CHIP_RW 2
#define CHIP_ABORTED 3

/* How many events a session holds. */
#define CHIP_EVENTS 16

/* A refusal that was recorded with its place, and the number of the operation that it was given to. The two bytes after
 * `place` carry nothing. */
typedef struct chip_event {
    uint32_t op;
    uint8_t refusal;
    uint8_t place; /* CHIP_PLACE_NONE to CHIP_PLACE_REFERENCE; any of them is sound beside any refusal */
} chip_event;

/* A session, as the caller holds it between calls. Every bit pattern is taken; one that is not sound is CHIP_SY_ERR. The
 * four bytes after the last field and the two at the end of each event carry nothing: sessions are compared field by field,
 * and events too, not by memcmp. */
typedef struct chip_session {
    chip_event events[CHIP_EVENTS]; /* the oldest first */
    uint64_t count;                 /* how many events there are; the fields of those after them are 0 */
    uint64_t repositories;          /* the open ones, bit r for repository r */
    uint64_t ro;                    /* models with read-only access, bit m for model m */
    uint64_t rw;                    /* models with read-write access */
    uint32_t opened;                /* 1 if the session is open */
    uint32_t recording;             /* 1 if refusals are recorded */
    uint32_t transaction;           /* CHIP_NONE to CHIP_ABORTED */
} chip_session;

/* What a call answers, and a tray. A refusal has value 0 and has changed no word of a table.
 *
 * Beside edition 1: `place` is new, here and in an event. It has taken bytes of the refusal, which had four: both have two
 * here and one in an event. Nothing else has moved, so the bytes of a sound session of edition 1 are a sound one here, with
 * place 0 in every event. Code that was compiled for edition 1 has to be compiled again. */
typedef struct chip_answer {
    uint16_t refusal; /* CHIP_DONE or one of the refusals below */
    uint16_t place;   /* what the refusal is about: one of the places below */
    uint32_t value;
    chip_session session;
} chip_answer;

/* ---- the operations ----
 *
 * What an operation does not name of a, b and c does not count. Values that are not told of are 0.
 *
 * Access: CHIP_GET and CHIP_TEST ask for none. A done one leaves the model of its instance with read-only access, unless
 * that has read-write access: a model without access is woken. A refused one gives none. What writes in a model asks for
 * read-write access, which a model without access gets by CHIP_RW_ACCESS and one with read-only access by CHIP_PROMOTE. */
enum chip_operation {
    CHIP_OPEN_SESSION = 1,
    CHIP_CLOSE_SESSION = 2,
    CHIP_OPEN_REPOSITORY = 3,         /* a: repository */
    CHIP_CLOSE_REPOSITORY = 4,        /* a: repository */
    CHIP_START_RW = 5,                /* a read-write transaction */
    CHIP_START_RO = 6,                /* a read-only transaction */
    CHIP_COMMIT = 7,                  /* kept becomes as working; access stays */
    CHIP_ABORT = 8,                   /* kept is copied to working; access ends, the transaction stays */
    CHIP_END_COMMIT = 9,              /* commit, and no transaction after it */
    CHIP_END_ABORT = 10,              /* abort, and no transaction after it */
    CHIP_RECORDING_ON = 11,           /* value: 1 */
    CHIP_RECORDING_OFF = 12,          /* value: 1 if it was on */
    CHIP_STORAGE_FAULT = 13,          /* the caller tells of a fault: the transaction is aborted */
    CHIP_CREATE_MODEL = 20,           /* a: repository, b: schema, c: name; value: its number */
    CHIP_DELETE_MODEL = 21,           /* a: model; its instances go too */
    CHIP_RO_ACCESS = 22,              /* a: model */
    CHIP_RW_ACCESS = 23,              /* a: model */
    CHIP_END_ACCESS = 24,             /* a: model */
    CHIP_PROMOTE = 25,                /* a: model; its read-only access becomes read-write */
    CHIP_CREATE_SCHEMA_INSTANCE = 30, /* a: repository, b: schema, c: name; value: its number */
    CHIP_DELETE_SCHEMA_INSTANCE = 31, /* a: schema instance */
    CHIP_ADD_MODEL = 32,              /* a: schema instance, b: model; value: how many models the set has now */
    CHIP_REMOVE_MODEL = 33,           /* a: schema instance, b: model; value: how many models the set has now */
    CHIP_CREATE_INSTANCE = 40,        /* a: model, b: type; value: its number */
    CHIP_DELETE_INSTANCE = 41,        /* a: instance; references to it become unset */
    CHIP_GET = 42,                    /* a: instance, b: attribute; value: what it holds; wakes its model */
    CHIP_TEST = 43,                   /* a: instance, b: attribute; value: 1 if it is set; wakes its model */
    CHIP_PUT = 44,                    /* a: instance, b: attribute, c: value */
    CHIP_UNSET = 45,                  /* a: instance, b: attribute */
    CHIP_SUBTYPE_TEST = 46            /* a: type, b: other; value: 1 if a is b or below it */
};

/* ---- the refusals ---- */
enum chip_refusal {
    CHIP_DONE = 0,
    CHIP_SY_ERR = 1,   /* tables or session are not sound, or a tray lacks room; the session comes back as given */
    CHIP_FN_NAVL = 2,  /* no such operation */
    CHIP_SS_OPN = 3,   /* a session is open */
    CHIP_SS_NOPN = 4,  /* no session is open */
    CHIP_TR_EAB = 5,   /* the transaction is aborted */
    CHIP_TR_EXS = 6,   /* there is a transaction */
    CHIP_TR_NEXS = 7,  /* there is no transaction to end, commit or abort */
    CHIP_TR_NAVL = 8,  /* there is no transaction to work in */
    CHIP_TR_NRW = 9,   /* the transaction is read-only */
    CHIP_RP_NEXS = 10, /* no such repository */
    CHIP_RP_OPN = 11,  /* the repository is open */
    CHIP_RP_NOPN = 12, /* the repository is not open */
    CHIP_MO_NEXS = 13, /* no such model */
    CHIP_MO_DUP = 14,  /* the repository has a model of that name */
    CHIP_MO_NDEQ = 15, /* the schemas of model and schema instance differ */
    CHIP_MO_NVLD = 16, /* remove model: not in the set; put: the two models are in no common set */
    CHIP_MX_RO = 17,   /* the model has read-only access */
    CHIP_MX_RW = 18,   /* the model has read-write access */
    CHIP_MX_NDEF = 19, /* the model has no access */
    CHIP_MX_NRW = 20,  /* the model, or one that refers to what would go, has no read-write access: the place tells which */
    CHIP_SD_NDEF = 21, /* no such schema */
    CHIP_SI_NEXS = 22, /* no such schema instance */
    CHIP_SI_DUP = 23,  /* the repository has a schema instance of that name */
    CHIP_ED_NDEF = 24, /* no such type */
    CHIP_ED_NDEQ = 25, /* the schemas of the two types differ */
    CHIP_ED_NVLD = 26, /* the type is of another schema than the model */
    CHIP_EI_NEXS = 27, /* no such instance */
    CHIP_AT_NDEF = 28, /* the type has no such attribute */
    CHIP_VA_NSET = 29, /* the attribute is not set */
    CHIP_VA_NVLD = 30, /* the value names no instance */
    CHIP_VT_NVLD = 31, /* the value names an instance of a wrong type */
    CHIP_NO_ROOM = 32  /* every entry is live */
};

/* ---- the places ----
 *
 * A condition on two arguments names the later one. Where both types of CHIP_SUBTYPE_TEST are none, the first is named. */
enum chip_place {
    CHIP_PLACE_NONE = 0,             /* done, or about no argument: SY_ERR, FN_NAVL, session and transaction */
    CHIP_PLACE_A = 1,                /* the argument that failed its check */
    CHIP_PLACE_B = 2,
    CHIP_PLACE_C = 3,
    CHIP_PLACE_MODELS = 4,           /* CHIP_NO_ROOM: there is none for a model */
    CHIP_PLACE_SCHEMA_INSTANCES = 5, /* for a schema instance */
    CHIP_PLACE_INSTANCES = 6,        /* for an instance */
    CHIP_PLACE_REFERENCE = 7         /* CHIP_MX_NRW: an instance that stays refers to what would go */
};

/* ---- the call ---- */

/* What crosses the border has these sizes and offsets, or this header is not for this machine. */
#define CHIP_MUST_HOLD(name, fact) typedef char chip_must_hold_##name[(fact) ? 1 : -1]
CHIP_MUST_HOLD(size_t_is_8_bytes, sizeof(size_t) == 8);
CHIP_MUST_HOLD(event_is_8_bytes, sizeof(chip_event) == 8 && offsetof(chip_event, refusal) == 4 &&
                                     offsetof(chip_event, place) == 5);
CHIP_MUST_HOLD(session_begins_with_events, offsetof(chip_session, events) == 0 && offsetof(chip_session, count) == 128);
CHIP_MUST_HOLD(session_has_its_sets, offsetof(chip_session, repositories) == 136 && offsetof(chip_session, ro) == 144 &&
                                         offsetof(chip_session, rw) == 152);
CHIP_MUST_HOLD(session_ends_with_its_state, offsetof(chip_session, opened) == 160 &&
                                                offsetof(chip_session, recording) == 164 &&
                                                offsetof(chip_session, transaction) == 168);
CHIP_MUST_HOLD(session_is_176_bytes, sizeof(chip_session) == 176);
CHIP_MUST_HOLD(answer_begins_with_its_numbers, offsetof(chip_answer, refusal) == 0 && offsetof(chip_answer, place) == 2 &&
                                                   offsetof(chip_answer, value) == 4);
CHIP_MUST_HOLD(answer_is_184_bytes, offsetof(chip_answer, session) == 8 && sizeof(chip_answer) == 184);

/* One operation: its number, its arguments, the session, the working and the kept table. */
chip_answer chip_call(uint32_t op, uint32_t a, uint32_t b, uint32_t c, chip_session session,
                      uint64_t *working, size_t working_words,
                      uint64_t *kept, size_t kept_words);

/* ---- a whole tray at once ---- */

/* One operation of a tray, with what chip_call takes for it. */
typedef struct chip_order {
    uint32_t op;
    uint32_t a;
    uint32_t b;
    uint32_t c;
} chip_order;

/* What an answer begins with: all of it but the session. A tray's orders are answered so, and chip_do gives one.
 *
 * Beside edition 3: the three had four bytes each, in the order refusal, value, place. */
typedef struct chip_result {
    uint16_t refusal;
    uint16_t place;
    uint32_t value;
} chip_result;

CHIP_MUST_HOLD(order_is_16_bytes, sizeof(chip_order) == 16 && offsetof(chip_order, a) == 4 &&
                                      offsetof(chip_order, b) == 8 && offsetof(chip_order, c) == 12);
CHIP_MUST_HOLD(result_is_8_bytes, sizeof(chip_result) == 8 && offsetof(chip_result, place) == 2 &&
                                      offsetof(chip_result, value) == 4);

/* `count` operations, one after the other; `places` is how many results there is room for. answers[n] becomes what chip_call
 * answers to orders[n] on the session and the tables that the orders before it left. Results from `count` on stay as they
 * are.
 *
 * The tray's own answer is CHIP_DONE with value 0 and the session that the last order left, however the orders were answered
 * and also if there are none. If `places` is below `count` it is CHIP_SY_ERR with value 0 and the session as given: no order
 * is looked at, and neither tables nor results are written. Its place is 0 in both cases.
 *
 * A tray is no transaction. A refusal in it stops nothing: the next order comes all the same, a commit too. And no order can
 * take the value of an earlier one, so what a creation gives is of use in the next tray.
 *
 * Tables and session are judged once, before the first order: what a call leaves of a sound state is sound, which is proved.
 * If they are not sound, the tray is done, and each of its orders has CHIP_SY_ERR, value 0 and place 0.
 *
 * All of a plate, by chip_do_tray below; the answers have the room, so it is done, and each of them says how its order went:
 *
 *     chip_order orders[3] = {{CHIP_GET, plate, CHIP_PLATE_NUMBER, 0},
 *                             {CHIP_GET, plate, CHIP_PLATE_MASS, 0},
 *                             {CHIP_GET, plate, CHIP_PLATE_THICKNESS, 0}};
 *     chip_result answers[3];
 *     chip_do_tray(&on, orders, 3, answers, 3);
 *     for (n = 0; n < 3; n++)
 *         printf("%s, %u\n", chip_refusal_name(answers[n].refusal), (unsigned)answers[n].value);
 */
chip_answer chip_tray(const chip_order *orders, size_t count, chip_result *answers, size_t places,
                      chip_session session,
                      uint64_t *working, size_t working_words,
                      uint64_t *kept, size_t kept_words);

/* ---- a chip in one struct ---- */

/* Some 12 KB: a session and its tables, which cannot overlap. */
typedef struct chip {
    chip_session session;
    uint64_t working[CHIP_WORDS];
    uint64_t kept[CHIP_WORDS];
} chip;

/* All zeros. */
static inline void chip_fresh(chip *on)
{
    unsigned char *bytes = (unsigned char *)on;
    size_t n;
    for (n = 0; n < sizeof *on; n++)
        bytes[n] = 0;
}

/* After a loss of power: the kept table is all that is left. */
static inline void chip_restart(chip *on)
{
    unsigned char *bytes = (unsigned char *)&on->session;
    size_t n;
    for (n = 0; n < sizeof on->session; n++)
        bytes[n] = 0;
    for (n = 0; n < CHIP_WORDS; n++)
        on->working[n] = on->kept[n];
}

/* Takes an answer apart: the session stays with the chip, and the rest is the result. */
static inline chip_result chip_settle(chip *on, const chip_answer *answer)
{
    chip_result result;
    on->session = answer->session;
    result.refusal = answer->refusal;
    result.place = answer->place;
    result.value = answer->value;
    return result;
}

/* chip_call on it. */
static inline chip_result chip_do(chip *on, uint32_t op, uint32_t a, uint32_t b, uint32_t c)
{
    chip_answer answer = chip_call(op, a, b, c, on->session, on->working, CHIP_WORDS, on->kept, CHIP_WORDS);
    return chip_settle(on, &answer);
}

/* chip_tray on it. */
static inline chip_result chip_do_tray(chip *on, const chip_order *orders, size_t count, chip_result *answers, size_t places)
{
    chip_answer answer =
        chip_tray(orders, count, answers, places, on->session, on->working, CHIP_WORDS, on->kept, CHIP_WORDS);
    return chip_settle(on, &answer);
}

/* ---- names for numbers ---- */

/* Its name as above, without CHIP_, or "done"; "unknown refusal" for a number that is none. */
static inline const char *chip_refusal_name(uint32_t refusal)
{
    switch (refusal) {
    case CHIP_DONE: return "done";
    case CHIP_SY_ERR: return "SY_ERR";
    case CHIP_FN_NAVL: return "FN_NAVL";
    case CHIP_SS_OPN: return "SS_OPN";
    case CHIP_SS_NOPN: return "SS_NOPN";
    case CHIP_TR_EAB: return "TR_EAB";
    case CHIP_TR_EXS: return "TR_EXS";
    case CHIP_TR_NEXS: return "TR_NEXS";
    case CHIP_TR_NAVL: return "TR_NAVL";
    case CHIP_TR_NRW: return "TR_NRW";
    case CHIP_RP_NEXS: return "RP_NEXS";
    case CHIP_RP_OPN: return "RP_OPN";
    case CHIP_RP_NOPN: return "RP_NOPN";
    case CHIP_MO_NEXS: return "MO_NEXS";
    case CHIP_MO_DUP: return "MO_DUP";
    case CHIP_MO_NDEQ: return "MO_NDEQ";
    case CHIP_MO_NVLD: return "MO_NVLD";
    case CHIP_MX_RO: return "MX_RO";
    case CHIP_MX_RW: return "MX_RW";
    case CHIP_MX_NDEF: return "MX_NDEF";
    case CHIP_MX_NRW: return "MX_NRW";
    case CHIP_SD_NDEF: return "SD_NDEF";
    case CHIP_SI_NEXS: return "SI_NEXS";
    case CHIP_SI_DUP: return "SI_DUP";
    case CHIP_ED_NDEF: return "ED_NDEF";
    case CHIP_ED_NDEQ: return "ED_NDEQ";
    case CHIP_ED_NVLD: return "ED_NVLD";
    case CHIP_EI_NEXS: return "EI_NEXS";
    case CHIP_AT_NDEF: return "AT_NDEF";
    case CHIP_VA_NSET: return "VA_NSET";
    case CHIP_VA_NVLD: return "VA_NVLD";
    case CHIP_VT_NVLD: return "VT_NVLD";
    case CHIP_NO_ROOM: return "NO_ROOM";
    default: return "unknown refusal";
    }
}

/* What it is, in words; "unknown place" for a number that is none. */
static inline const char *chip_place_name(uint32_t place)
{
    switch (place) {
    case CHIP_PLACE_NONE: return "none";
    case CHIP_PLACE_A: return "argument a";
    case CHIP_PLACE_B: return "argument b";
    case CHIP_PLACE_C: return "argument c";
    case CHIP_PLACE_MODELS: return "models";
    case CHIP_PLACE_SCHEMA_INSTANCES: return "schema instances";
    case CHIP_PLACE_INSTANCES: return "instances";
    case CHIP_PLACE_REFERENCE: return "remaining reference";
    default: return "unknown place";
    }
}

/* "unknown operation" for a number that is not listed. */
static inline const char *chip_operation_name(uint32_t op)
{
    switch (op) {
    case CHIP_OPEN_SESSION: return "open session";
    case CHIP_CLOSE_SESSION: return "close session";
    case CHIP_OPEN_REPOSITORY: return "open repository";
    case CHIP_CLOSE_REPOSITORY: return "close repository";
    case CHIP_START_RW: return "start RW";
    case CHIP_START_RO: return "start RO";
    case CHIP_COMMIT: return "commit";
    case CHIP_ABORT: return "abort";
    case CHIP_END_COMMIT: return "end, commit";
    case CHIP_END_ABORT: return "end, abort";
    case CHIP_RECORDING_ON: return "recording on";
    case CHIP_RECORDING_OFF: return "recording off";
    case CHIP_STORAGE_FAULT: return "storage fault";
    case CHIP_CREATE_MODEL: return "create model";
    case CHIP_DELETE_MODEL: return "delete model";
    case CHIP_RO_ACCESS: return "RO access";
    case CHIP_RW_ACCESS: return "RW access";
    case CHIP_END_ACCESS: return "end access";
    case CHIP_PROMOTE: return "promote";
    case CHIP_CREATE_SCHEMA_INSTANCE: return "create schema instance";
    case CHIP_DELETE_SCHEMA_INSTANCE: return "delete schema instance";
    case CHIP_ADD_MODEL: return "add model";
    case CHIP_REMOVE_MODEL: return "remove model";
    case CHIP_CREATE_INSTANCE: return "create instance";
    case CHIP_DELETE_INSTANCE: return "delete instance";
    case CHIP_GET: return "get";
    case CHIP_TEST: return "test";
    case CHIP_PUT: return "put";
    case CHIP_UNSET: return "unset";
    case CHIP_SUBTYPE_TEST: return "subtype test";
    default: return "unknown operation";
    }
}

#ifdef __cplusplus
}
#endif

#endif
