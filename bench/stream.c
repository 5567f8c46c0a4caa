/* Writes records for the reader's program: a full chip, then so many reads and puts in turn: stream COUNT */
#include "full_chip.h"

#include "../tests/compare/arguments.h"
#include "../tests/streams/records.h"

#include <stdlib.h>

static void write_record(void *out, uint32_t op, uint32_t a, uint32_t b, uint32_t c)
{
    const call asked = {op, a, b, c};
    unsigned char record[RECORD_BYTES];
    put_record(record, &asked);
    if (fwrite(record, 1, RECORD_BYTES, out) != RECORD_BYTES) {
        fprintf(stderr, "stream: the records cannot be written\n");
        exit(1);
    }
}

int main(int count, char **words)
{
    if (count != 2) {
        fprintf(stderr, "stream: how many reads and puts? stream COUNT\n");
        return 2;
    }
    const unsigned long long reads = number_argument("stream", "COUNT", words[1]);
    full_chip(write_record, stdout);
    for (unsigned long long n = 0; n < reads; n++)
        write_record(stdout, n % 2 == 0 ? CHIP_GET : CHIP_PUT, n / 2 % CHIP_INSTANCES, 0, (uint32_t)n);
    return fflush(stdout) != 0;
}
