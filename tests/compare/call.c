#include "call.h"

static int same_events(const chip_event *one, const chip_event *other)
{
    for (int e = 0; e < CHIP_EVENTS; e++)
        if (one[e].op != other[e].op || one[e].refusal != other[e].refusal || one[e].place != other[e].place)
            return 0;
    return 1;
}

int same_session(const chip_session *one, const chip_session *other)
{
    return one->opened == other->opened && one->recording == other->recording &&
           one->transaction == other->transaction && one->repositories == other->repositories &&
           one->ro == other->ro && one->rw == other->rw && one->count == other->count &&
           same_events(one->events, other->events);
}

void blank_row(chip_result *row, size_t places)
{
    for (size_t n = 0; n < places; n++)
        row[n] = (chip_result){(uint16_t)(0x8000 | n), (uint16_t)~n, (uint32_t)(n * 0x9e3779b1)};
}
