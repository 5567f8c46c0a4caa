/* Random walks: the next call, chosen by what the chip holds so that walks reach far. */
#ifndef WALK_H
#define WALK_H

#include "call.h"
#include "dice.h"

/* What a stretch of a walk is about. */
enum phase { FILL, GATHER, MIX, DRAIN, LOOSE, PHASES };

typedef struct walk {
    dice *dice;
    enum phase phase;
    uint32_t left;         /* calls until the next phase */
    uint32_t schema;       /* the one of all entries, or 0 for both */
    uint32_t names;        /* how many there are */
    uint32_t favourite;    /* the schema instance that GATHER fills */
    uint64_t repositories; /* the ones that are opened when closed */
    int calm;              /* whether little is undone, so that much is on the chip */
} walk;

walk walk_from(dice *d);

/* The next call of a walk that has come to this session and working table, which are sound. */
call walk_next(walk *w, const chip_session *session, const uint64_t *working);

/* A call of any operation, listed or not, with arguments as on the walk. */
call walk_aside(walk *w, const chip_session *session, const uint64_t *working);

#endif
