/* The reader's program of documents 01 and 02 in plain C: standard input to standard output. */
#include "records.h"

int main(void)
{
    return read_records(stdin, stdout);
}
