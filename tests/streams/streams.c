/* Writes record streams and what the model prints for them: streams make FOLDER SEED */
#include "records.h"

#include "../compare/arguments.h"
#include "../compare/walk.h"
#include "../model/model.h"

#include <stdlib.h>
#include <string.h>

/* A walk of so many records and the first `cut` bytes of one more. In record `wrong`, counted from 1, byte 0 or 1 of
 * the mark is wrong; 0 for none. */
typedef struct stream {
    const char *name;
    uint32_t records, cut;
    uint32_t wrong, byte;
} stream;

/* A block of 16,384 bytes holds 1,024 records. */
static const stream streams[] = {
    {"walk_0", 0, 0, 0, 0},
    {"walk_1", 1, 0, 0, 0},
    {"walk_2", 2, 0, 0, 0},
    {"walk_300", 300, 0, 0, 0},
    {"walk_1023", 1023, 0, 0, 0},
    {"walk_1024", 1024, 0, 0, 0},
    {"walk_1025", 1025, 0, 0, 0},
    {"walk_2047", 2047, 0, 0, 0},
    {"walk_2048", 2048, 0, 0, 0},
    {"walk_2049", 2049, 0, 0, 0},
    {"walk_5000", 5000, 0, 0, 0},
    {"walk_20000", 20000, 0, 0, 0},
    {"mark_0_first", 100, 0, 1, 0},
    {"mark_0_middle", 100, 0, 50, 0},
    {"mark_0_last", 100, 0, 100, 0},
    {"mark_1_first", 100, 0, 1, 1},
    {"mark_1_middle", 100, 0, 50, 1},
    {"mark_1_last", 100, 0, 100, 1},
    {"mark_0_of_only", 1, 0, 1, 0},
    {"mark_1_of_only", 1, 0, 1, 1},
    {"mark_0_before_edge", 1100, 0, 1024, 0},
    {"mark_1_after_edge", 1100, 0, 1025, 1},
    {"cut_1_at_once", 0, 1, 0, 0},
    {"cut_2_at_once", 0, 2, 0, 0},
    {"cut_15_at_once", 0, 15, 0, 0},
    {"cut_1", 100, 1, 0, 0},
    {"cut_2", 100, 2, 0, 0},
    {"cut_3", 100, 3, 0, 0},
    {"cut_8", 100, 8, 0, 0},
    {"cut_15", 100, 15, 0, 0},
    {"cut_1_before_edge", 1023, 1, 0, 0},
    {"cut_15_before_edge", 1023, 15, 0, 0},
    {"cut_1_after_edge", 1024, 1, 0, 0},
    {"cut_15_after_edge", 1024, 15, 0, 0},
    {"cut_1_after_second_edge", 2048, 1, 0, 0},
    {"cut_1_mark_0", 100, 1, 101, 0},
    {"cut_2_mark_1", 100, 2, 101, 1},
    {"cut_15_mark_0", 100, 15, 101, 0},
    {"cut_15_mark_1", 100, 15, 101, 1},
    {"cut_1_mark_0_after_edge", 1024, 1, 1025, 0},
};

static void put_walk(dice *d, unsigned char *bytes, uint32_t records)
{
    uint64_t working[CHIP_WORDS] = {0}, kept[CHIP_WORDS] = {0};
    chip_session session = {0};
    walk w = walk_from(d);
    for (uint32_t n = 0; n < records; n++) {
        call asked = walk_next(&w, &session, working);
        asked.op &= 0xffff;
        put_record(bytes + RECORD_BYTES * n, &asked);
        chip_answer answer =
            model_core(asked.op, asked.a, asked.b, asked.c, session, working, CHIP_WORDS, kept, CHIP_WORDS);
        session = answer.session;
    }
}

static void fail(const char *what, const char *path)
{
    fprintf(stderr, "streams: cannot %s %s\n", what, path);
    exit(2);
}

static FILE *opened(const char *path, const char *mode)
{
    FILE *file = fopen(path, mode);
    if (!file)
        fail("open", path);
    return file;
}

static void write_bytes(const char *path, const unsigned char *bytes, size_t count)
{
    FILE *file = opened(path, "wb");
    if (fwrite(bytes, 1, count, file) != count)
        fail("write", path);
    if (fclose(file) != 0)
        fail("write", path);
}

static void write_text(const char *path, const char *records_path)
{
    FILE *in = opened(records_path, "rb");
    FILE *out = opened(path, "w");
    if (read_records(in, out) != 0)
        fail("write", path);
    fclose(in);
    if (fclose(out) != 0)
        fail("write", path);
}

static char *path_of(const char *folder, const char *name, const char *ending)
{
    size_t size = strlen(folder) + strlen(name) + strlen(ending) + 2;
    char *path = malloc(size);
    if (!path)
        fail("find memory for", name);
    snprintf(path, size, "%s/%s%s", folder, name, ending);
    return path;
}

static void make_stream(const stream *s, const char *folder, dice *d)
{
    unsigned char *bytes = malloc(RECORD_BYTES * ((size_t)s->records + 1));
    if (!bytes)
        fail("find memory for", s->name);
    put_walk(d, bytes, s->records + 1);
    if (s->wrong)
        bytes[RECORD_BYTES * (s->wrong - 1) + s->byte] ^= (unsigned char)one_bit(d, 0, 7);
    char *records_path = path_of(folder, s->name, ".bin");
    char *text_path = path_of(folder, s->name, ".txt");
    write_bytes(records_path, bytes, RECORD_BYTES * (size_t)s->records + s->cut);
    write_text(text_path, records_path);
    free(text_path);
    free(records_path);
    free(bytes);
}

int main(int count, char **arguments)
{
    if (count != 4 || strcmp(arguments[1], "make") != 0) {
        fprintf(stderr, "usage: streams make FOLDER SEED\n");
        return 2;
    }
    dice d = {number_argument("streams", "SEED", arguments[3])};
    for (size_t n = 0; n < sizeof streams / sizeof *streams; n++)
        make_stream(&streams[n], arguments[2], &d);
    printf("streams: %zu made\n", sizeof streams / sizeof *streams);
    return 0;
}
