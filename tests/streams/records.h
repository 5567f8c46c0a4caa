/* Records of the reader's program: the mark bytes 53 44, then operation (u16), a, b, c (u32), little-endian. */
#ifndef RECORDS_H
#define RECORDS_H

#include "../compare/call.h"

#include <stdio.h>

#define RECORD_BYTES 16
#define MARK_0 0x53
#define MARK_1 0x44

/* The RECORD_BYTES bytes of a call. */
void put_record(unsigned char *record, const call *asked);

/* Takes records from a fresh chip on and prints what documents 01 and 02 ask for; 0 if all could be read and written. */
int read_records(FILE *in, FILE *out);

#endif
