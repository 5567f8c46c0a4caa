#include "records.h"

#include "../model/model.h"

static uint32_t u32_at(const unsigned char *bytes)
{
    return bytes[0] | (uint32_t)bytes[1] << 8 | (uint32_t)bytes[2] << 16 | (uint32_t)bytes[3] << 24;
}

static uint32_t u16_at(const unsigned char *bytes)
{
    return bytes[0] | (uint32_t)bytes[1] << 8;
}

static void put_u32(unsigned char *bytes, uint32_t value)
{
    for (int n = 0; n < 4; n++)
        bytes[n] = (unsigned char)(value >> 8 * n);
}

void put_record(unsigned char *record, const call *asked)
{
    record[0] = MARK_0;
    record[1] = MARK_1;
    record[2] = (unsigned char)asked->op;
    record[3] = (unsigned char)(asked->op >> 8);
    put_u32(record + 4, asked->a);
    put_u32(record + 8, asked->b);
    put_u32(record + 12, asked->c);
}

/* The state that calls lead to is sound, so it need not be tested. */
int read_records(FILE *in, FILE *out)
{
    uint64_t working[CHIP_WORDS] = {0}, kept[CHIP_WORDS] = {0};
    chip_session session = {0};
    unsigned char record[RECORD_BYTES];
    unsigned long done = 0;
    size_t got;
    while ((got = fread(record, 1, RECORD_BYTES, in)) == RECORD_BYTES && record[0] == MARK_0 && record[1] == MARK_1) {
        uint32_t op = u16_at(record + 2);
        chip_answer answer = model_core(op, u32_at(record + 4), u32_at(record + 8), u32_at(record + 12), session,
                                        working, CHIP_WORDS, kept, CHIP_WORDS);
        session = answer.session;
        done++;
        fprintf(out, "%lu %u %u %u %u\n", done, (unsigned)op, (unsigned)answer.refusal, (unsigned)answer.value,
                (unsigned)answer.place);
    }
    if (got == 0)
        fprintf(out, "end %lu\n", done);
    else
        fprintf(out, "bad %lu\n", done + 1);
    return ferror(in) || fflush(out) != 0;
}
