/* A machine of documents 01 and 02 in plain C, written from their text: what the library is compared with. */
#ifndef MODEL_H
#define MODEL_H

#include "../../include/chip.h"

/* Answers as chip_call must, for every input. */
chip_answer model_call(uint32_t op, uint32_t a, uint32_t b, uint32_t c, chip_session session,
                       uint64_t *working, size_t working_words,
                       uint64_t *kept, size_t kept_words);

/* The same for tables and a session that are known to be sound: never SY_ERR. */
chip_answer model_core(uint32_t op, uint32_t a, uint32_t b, uint32_t c, chip_session session,
                       uint64_t *working, size_t working_words,
                       uint64_t *kept, size_t kept_words);

/* Answers as chip_tray must, for every input. */
chip_answer model_tray(const chip_order *orders, size_t count, chip_result *answers, size_t places,
                       chip_session session,
                       uint64_t *working, size_t working_words,
                       uint64_t *kept, size_t kept_words);

#endif
