/* Questions to the chip, and who may answer them. */
#ifndef CALL_H
#define CALL_H

#include "../../include/chip.h"

typedef chip_order call;

typedef chip_answer chip_function(uint32_t op, uint32_t a, uint32_t b, uint32_t c, chip_session session,
                                  uint64_t *working, size_t working_words,
                                  uint64_t *kept, size_t kept_words);

typedef chip_answer tray_function(const chip_order *orders, size_t count, chip_result *answers, size_t places,
                                  chip_session session,
                                  uint64_t *working, size_t working_words,
                                  uint64_t *kept, size_t kept_words);

/* In every field; the bytes that carry nothing do not count. */
int same_session(const chip_session *one, const chip_session *other);

/* Fills a row of answers with what is no answer, something else at each place. */
void blank_row(chip_result *row, size_t places);

#endif
