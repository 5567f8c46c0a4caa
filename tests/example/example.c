/* Makes a plate on a fresh chip, reads it back and keeps it; then power is lost, and the plate is read from what was kept
 * and made thinner. One question is wrong, and the answer says which argument is to blame. What waits for no answer is
 * asked in trays. */
#include "chip.h"

#include <stdio.h>

static int refused;

static uint32_t tell(uint32_t op, chip_result result)
{
    if (result.refusal == CHIP_DONE) {
        printf("%s: done, value %u\n", chip_operation_name(op), (unsigned)result.value);
    } else {
        printf("%s: %s, place: %s\n", chip_operation_name(op), chip_refusal_name(result.refusal),
               chip_place_name(result.place));
        refused++;
    }
    return result.value;
}

static uint32_t ask(chip *on, uint32_t op, uint32_t a, uint32_t b, uint32_t c)
{
    return tell(op, chip_do(on, op, a, b, c));
}

/* A tray is done if there is room for its answers; how each order went is told there. */
static void ask_three(chip *on, const chip_order orders[3])
{
    chip_result answers[3];
    int n;
    if (chip_do_tray(on, orders, 3, answers, 3).refusal != CHIP_DONE) {
        refused++;
        return;
    }
    for (n = 0; n < 3; n++)
        tell(orders[n].op, answers[n]);
}

static void begin(chip *on, uint32_t repository)
{
    const chip_order orders[3] = {
        {CHIP_OPEN_SESSION, 0, 0, 0}, {CHIP_OPEN_REPOSITORY, repository, 0, 0}, {CHIP_START_RW, 0, 0, 0}};
    ask_three(on, orders);
}

static void put_plate(chip *on, uint32_t plate, uint32_t number, uint32_t mass, uint32_t thickness)
{
    const chip_order orders[3] = {{CHIP_PUT, plate, CHIP_PLATE_NUMBER, number},
                                  {CHIP_PUT, plate, CHIP_PLATE_MASS, mass},
                                  {CHIP_PUT, plate, CHIP_PLATE_THICKNESS, thickness}};
    ask_three(on, orders);
}

static void make_plate(chip *on, uint32_t repository, uint32_t schema, uint32_t name)
{
    uint32_t model, plate;
    begin(on, repository);
    model = ask(on, CHIP_CREATE_MODEL, repository, schema, name);
    ask(on, CHIP_RW_ACCESS, model, 0, 0);
    plate = ask(on, CHIP_CREATE_INSTANCE, model, CHIP_PLATE, 0);
    put_plate(on, plate, 5, 1200, 25);
    ask(on, CHIP_GET, plate, CHIP_PLATE_THICKNESS, 0);
    ask(on, CHIP_END_COMMIT, 0, 0, 0);
}

/* The get gives the model read-only access, the promotion makes it read-write. A plate has no attribute after its
 * thickness. */
static void grind_plate(chip *on, uint32_t repository, uint32_t model, uint32_t plate)
{
    begin(on, repository);
    ask(on, CHIP_GET, plate, CHIP_PLATE_THICKNESS, 0);
    ask(on, CHIP_PROMOTE, model, 0, 0);
    ask(on, CHIP_PUT, plate, CHIP_PLATE_THICKNESS + 1, 24);
    ask(on, CHIP_PUT, plate, CHIP_PLATE_THICKNESS, 24);
    ask(on, CHIP_GET, plate, CHIP_PLATE_THICKNESS, 0);
    ask(on, CHIP_END_COMMIT, 0, 0, 0);
    ask(on, CHIP_CLOSE_SESSION, 0, 0, 0);
}

int main(void)
{
    static chip on;
    chip_fresh(&on);
    make_plate(&on, 0, 1, 7);
    chip_restart(&on);
    grind_plate(&on, 0, 0, 0);
    return refused != 1;
}
