#include "triples.h"

#include "../../include/chip.h"

#include <stdio.h>

#define OPS (CHIP_SUBTYPE_TEST + 1)
#define MOST_ANSWERS 12

typedef struct answer {
    uint8_t refusal, place;
} answer;

#define AT(place, name) {CHIP_##name, CHIP_PLACE_##place}

/* SY_ERR for every call, SS_NOPN for all but 1, and the transaction checks of 20 to 45. */
#define EVERY AT(NONE, SY_ERR)
#define OPENED EVERY, AT(NONE, SS_NOPN)
#define READER OPENED, AT(NONE, TR_EAB), AT(NONE, TR_NAVL)
#define WRITER READER, AT(NONE, TR_NRW)

/* The refusals of each operation of documents 01 and 02, in the order of their checks; then zeros, which are done at
 * place 0. Row 0 stands for every number that is not listed, and is never done. */
static const answer rows[OPS][MOST_ANSWERS] = {
    [0] = {EVERY, AT(NONE, FN_NAVL)},
    [1] = {EVERY, AT(NONE, SS_OPN)},
    [2] = {OPENED},
    [3] = {OPENED, AT(A, RP_NEXS), AT(A, RP_OPN)},
    [4] = {OPENED, AT(NONE, TR_EAB), AT(NONE, TR_EXS), AT(A, RP_NEXS), AT(A, RP_NOPN)},
    [5] = {OPENED, AT(NONE, TR_EAB), AT(NONE, TR_EXS)},
    [6] = {OPENED, AT(NONE, TR_EAB), AT(NONE, TR_EXS)},
    [7] = {OPENED, AT(NONE, TR_EAB), AT(NONE, TR_NEXS), AT(NONE, TR_NRW)},
    [8] = {OPENED, AT(NONE, TR_EAB), AT(NONE, TR_NEXS), AT(NONE, TR_NRW)},
    [9] = {OPENED, AT(NONE, TR_EAB), AT(NONE, TR_NEXS)},
    [10] = {OPENED, AT(NONE, TR_NEXS)},
    [11] = {OPENED},
    [12] = {OPENED},
    [13] = {OPENED, AT(NONE, TR_EAB), AT(NONE, TR_NAVL)},
    [20] = {WRITER, AT(A, RP_NEXS), AT(A, RP_NOPN), AT(B, SD_NDEF), AT(C, MO_DUP), AT(MODELS, NO_ROOM)},
    [21] = {WRITER, AT(A, MO_NEXS), AT(A, MX_NRW), AT(REFERENCE, MX_NRW)},
    [22] = {READER, AT(A, MO_NEXS), AT(A, RP_NOPN), AT(A, MX_RO), AT(A, MX_RW)},
    [23] = {WRITER, AT(A, MO_NEXS), AT(A, RP_NOPN), AT(A, MX_RW), AT(A, MX_RO)},
    [24] = {READER, AT(A, MO_NEXS), AT(A, MX_NDEF)},
    [25] = {WRITER, AT(A, MO_NEXS), AT(A, MX_NDEF), AT(A, MX_RW)},
    [30] = {WRITER, AT(A, RP_NEXS), AT(A, RP_NOPN), AT(B, SD_NDEF), AT(C, SI_DUP), AT(SCHEMA_INSTANCES, NO_ROOM)},
    [31] = {WRITER, AT(A, SI_NEXS), AT(A, RP_NOPN)},
    [32] = {WRITER, AT(A, SI_NEXS), AT(A, RP_NOPN), AT(B, MO_NEXS), AT(B, RP_NOPN), AT(B, MO_NDEQ)},
    [33] = {WRITER, AT(A, SI_NEXS), AT(A, RP_NOPN), AT(B, MO_NEXS), AT(B, MO_NVLD)},
    [40] = {WRITER, AT(A, MO_NEXS), AT(A, MX_NRW), AT(B, ED_NDEF), AT(B, ED_NVLD), AT(INSTANCES, NO_ROOM)},
    [41] = {WRITER, AT(A, EI_NEXS), AT(A, MX_NRW), AT(REFERENCE, MX_NRW)},
    [42] = {READER, AT(A, EI_NEXS), AT(A, RP_NOPN), AT(B, AT_NDEF), AT(B, VA_NSET)},
    [43] = {READER, AT(A, EI_NEXS), AT(A, RP_NOPN), AT(B, AT_NDEF)},
    [44] = {WRITER, AT(A, EI_NEXS), AT(A, MX_NRW), AT(B, AT_NDEF), AT(C, VA_NVLD), AT(C, VT_NVLD), AT(C, MO_NVLD)},
    [45] = {WRITER, AT(A, EI_NEXS), AT(A, MX_NRW), AT(B, AT_NDEF)},
    [46] = {OPENED, AT(A, ED_NDEF), AT(B, ED_NDEF), AT(B, ED_NDEQ)},
};

static uint8_t reached[OPS][MOST_ANSWERS];

static int is_listed(uint32_t op)
{
    return op > 0 && op < OPS && rows[op][0].refusal;
}

/* How many answers a row has, with done. */
static int answers(uint32_t row)
{
    int count = 0;
    while (rows[row][count].refusal)
        count++;
    return count + is_listed(row);
}

int triple_reached(uint32_t op, uint32_t refusal, uint32_t place)
{
    uint32_t row = is_listed(op) ? op : 0;
    for (int n = 0, count = answers(row); n < count; n++)
        if (rows[row][n].refusal == refusal && rows[row][n].place == place) {
            reached[row][n] = 1;
            return 1;
        }
    return 0;
}

int print_triples(int names)
{
    int all = 0, missing = 0;
    for (uint32_t op = 0; op < OPS; op++)
        for (int n = 0; n < answers(op); n++) {
            all++;
            missing += !reached[op][n];
        }
    printf("triples of operation, refusal and place: %d of %d reached\n", all - missing, all);
    for (uint32_t op = 0; names && op < OPS; op++)
        for (int n = 0; n < answers(op); n++)
            if (!reached[op][n])
                printf("  not reached: %u %s, %s, place %u\n", (unsigned)op, chip_operation_name(op),
                       chip_refusal_name(rows[op][n].refusal), (unsigned)rows[op][n].place);
    return missing;
}

/* ---- the table ---- */

/* The answers of place 0 alone, or the others alone, each with its place. */
static void print_answers(uint32_t op, int placed)
{
    const char *between = " ";
    for (int n = 0; n < answers(op); n++) {
        const answer *given = &rows[op][n];
        if ((given->place != CHIP_PLACE_NONE) != placed)
            continue;
        printf("%s%s", between, chip_refusal_name(given->refusal));
        if (placed)
            printf(" %u", (unsigned)given->place);
        between = ", ";
    }
}

static void print_row(uint32_t op)
{
    if (op)
        printf("| %u %s |", (unsigned)op, chip_operation_name(op));
    else
        printf("| any other number |");
    print_answers(op, 0);
    printf(" |");
    print_answers(op, 1);
    printf(" |\n");
}

void print_table(void)
{
    printf("| op | place 0 | refusals with another place, and the place |\n|---|---|---|\n");
    for (uint32_t op = 1; op < OPS; op++)
        if (is_listed(op))
            print_row(op);
    print_row(0);
}
