/*
 * A library with Arrow columns, for tests/python/columns.py: the structures are those of Arrow's C data interface and C
 * stream interface. It lends columns, whose buffers end where a page ends that nobody may read, and counts what is not
 * released. And it takes a column, which it moves, and writes as a text. Each value ends with a comma. Bytes are "z",
 * their number, a colon and themselves, and texts the same with "u".
 */
#define _GNU_SOURCE
#include <inttypes.h>
#include <stdbool.h>
#include <stdint.h>
#include <stdio.h>
#include <stdlib.h>
#include <string.h>
#include <sys/mman.h>
#include <unistd.h>

struct ArrowSchema {
    const char *format;
    const char *name;
    const char *metadata;
    int64_t flags;
    int64_t n_children;
    struct ArrowSchema **children;
    struct ArrowSchema *dictionary;
    void (*release)(struct ArrowSchema *);
    void *private_data;
};

struct ArrowArray {
    int64_t length;
    int64_t null_count;
    int64_t offset;
    int64_t n_buffers;
    int64_t n_children;
    const void **buffers;
    struct ArrowArray **children;
    struct ArrowArray *dictionary;
    void (*release)(struct ArrowArray *);
    void *private_data;
};

struct ArrowArrayStream {
    int (*get_schema)(struct ArrowArrayStream *, struct ArrowSchema *out);
    int (*get_next)(struct ArrowArrayStream *, struct ArrowArray *out);
    const char *(*get_last_error)(struct ArrowArrayStream *);
    void (*release)(struct ArrowArrayStream *);
    void *private_data;
};

int64_t live; /* what was lent and is not released */

static void release_schema(struct ArrowSchema *schema)
{
    if (schema->dictionary != NULL && schema->dictionary->release != NULL)
        schema->dictionary->release(schema->dictionary);
    free((char *)schema->format);
    schema->release = NULL;
    live--;
}

struct ArrowSchema *new_schema(const char *format, struct ArrowSchema *dictionary)
{
    struct ArrowSchema *schema = calloc(1, sizeof *schema);
    schema->format = strdup(format);
    schema->name = "";
    schema->dictionary = dictionary;
    schema->release = release_schema;
    live++;
    return schema;
}

/* A buffer of so many bytes, behind which comes a page without access. */
static void *lent(const void *bytes, size_t size)
{
    size_t page = (size_t)sysconf(_SC_PAGESIZE), room = (size + page - 1) / page * page;
    uint8_t *place = mmap(NULL, room + page, PROT_READ | PROT_WRITE, MAP_PRIVATE | MAP_ANONYMOUS, -1, 0);
    if (place == MAP_FAILED || mprotect(place + room, page, PROT_NONE) != 0)
        abort();
    return memcpy(place + room - size, bytes, size);
}

static void take_back(const void *buffer, size_t size)
{
    size_t page = (size_t)sysconf(_SC_PAGESIZE), room = (size + page - 1) / page * page;
    munmap((uint8_t *)buffer + size - room, room + page);
}

static void release_array(struct ArrowArray *array)
{
    const size_t *sizes = array->private_data;
    int64_t at;
    for (at = 0; at < array->n_buffers; at++) {
        if (array->buffers[at] != NULL)
            take_back(array->buffers[at], sizes[at]);
    }
    if (array->dictionary != NULL && array->dictionary->release != NULL)
        array->dictionary->release(array->dictionary);
    free(array->private_data);
    free(array->buffers);
    array->release = NULL;
    live--;
}

struct ArrowArray *new_array(int64_t length, int64_t null_count, int64_t offset, int64_t n_buffers,
                             const void *const *buffers, const size_t *sizes, struct ArrowArray *dictionary)
{
    struct ArrowArray *array = calloc(1, sizeof *array);
    int64_t at;
    *array = (struct ArrowArray){length, null_count, offset, n_buffers, 0, NULL, NULL, dictionary, release_array, NULL};
    array->buffers = calloc((size_t)n_buffers + 1, sizeof *array->buffers);
    array->private_data = memcpy(calloc((size_t)n_buffers + 1, sizeof *sizes), sizes,
                                 (size_t)n_buffers * sizeof *sizes);
    for (at = 0; at < n_buffers; at++)
        array->buffers[at] = buffers[at] == NULL ? NULL : lent(buffers[at], sizes[at]);
    live++;
    return array;
}

struct parts {
    struct ArrowSchema *schema;
    struct ArrowArray **arrays;
    int64_t count, at;
    bool fails;
};

static int get_schema(struct ArrowArrayStream *stream, struct ArrowSchema *out)
{
    struct parts *parts = stream->private_data;
    *out = *parts->schema;
    out->format = strdup(out->format);
    live++;
    return 0;
}

/* Behind the last array comes one that is released, or a fault. */
static int get_next(struct ArrowArrayStream *stream, struct ArrowArray *out)
{
    struct parts *parts = stream->private_data;
    if (parts->at == parts->count) {
        memset(out, 0, sizeof *out);
        return parts->fails ? 5 : 0;
    }
    *out = *parts->arrays[parts->at];
    parts->arrays[parts->at++]->release = NULL;
    return 0;
}

static const char *get_last_error(struct ArrowArrayStream *stream)
{
    return stream->private_data == NULL ? NULL : "the disk is gone";
}

static void release_stream(struct ArrowArrayStream *stream)
{
    struct parts *parts = stream->private_data;
    for (; parts->at < parts->count; parts->at++)
        parts->arrays[parts->at]->release(parts->arrays[parts->at]);
    parts->schema->release(parts->schema);
    free(parts);
    stream->release = NULL;
    live--;
}

struct ArrowArrayStream *new_stream(struct ArrowSchema *schema, struct ArrowArray **arrays, int64_t count, bool fails)
{
    struct ArrowArrayStream *stream = calloc(1, sizeof *stream);
    struct parts *parts = calloc(1, sizeof *parts);
    *parts = (struct parts){schema,
                            memcpy(calloc((size_t)count + 1, sizeof *arrays), arrays, (size_t)count * sizeof *arrays),
                            count, 0, fails};
    *stream = (struct ArrowArrayStream){get_schema, get_next, get_last_error, release_stream, parts};
    live++;
    return stream;
}

/* What the test's own capsules do at their end. */
void end_schema(struct ArrowSchema *schema)
{
    if (schema->release != NULL)
        schema->release(schema);
}

void end_array(struct ArrowArray *array)
{
    if (array->release != NULL)
        array->release(array);
}

void end_stream(struct ArrowArrayStream *stream)
{
    if (stream->release != NULL)
        stream->release(stream);
}

static bool bit(const void *bits, int64_t at)
{
    return bits == NULL || (((const uint8_t *)bits)[at / 8] >> at % 8 & 1) != 0;
}

static int64_t place(const struct ArrowArray *array, bool is_large, int64_t at)
{
    return is_large ? ((const int64_t *)array->buffers[1])[at] : ((const int32_t *)array->buffers[1])[at];
}

static void put(FILE *file, const struct ArrowSchema *schema, const struct ArrowArray *array, int64_t row);

static void put_bytes(FILE *file, char letter, const uint8_t *bytes, int64_t first, int64_t end)
{
    fprintf(file, "%c%" PRId64 ":", letter, end - first);
    fwrite(bytes + first, 1, (size_t)(end - first), file);
}

static void put_list(FILE *file, const struct ArrowSchema *item, const struct ArrowArray *items, int64_t first,
                     int64_t end)
{
    fputc('[', file);
    for (; first < end; first++)
        put(file, item, items, first);
    fputc(']', file);
}

static void put_struct(FILE *file, const struct ArrowSchema *schema, const struct ArrowArray *array, int64_t row)
{
    int64_t at;
    fputc('{', file);
    for (at = 0; at < schema->n_children; at++) {
        fputs(schema->children[at]->name, file);
        fputc('=', file);
        put(file, schema->children[at], array->children[at], row);
    }
    fputc('}', file);
}

static void put(FILE *file, const struct ArrowSchema *schema, const struct ArrowArray *array, int64_t row)
{
    const char *format = schema->format;
    bool is_large = format[0] == 'U' || format[0] == 'Z' || strcmp(format, "+L") == 0;
    if (!bit(array->buffers[0], row))
        fputs("null", file);
    else if (strchr("uUzZ", format[0]) != NULL)
        put_bytes(file, format[0] | 0x20, array->buffers[2], place(array, is_large, row),
                  place(array, is_large, row + 1));
    else if (strcmp(format, "b") == 0)
        fputs(bit(array->buffers[1], row) ? "true" : "false", file);
    else if (strcmp(format, "I") == 0)
        fprintf(file, "%" PRIu32, ((const uint32_t *)array->buffers[1])[row]);
    else if (strcmp(format, "+s") == 0)
        put_struct(file, schema, array, row);
    else if (strcmp(format, "+l") == 0 || strcmp(format, "+L") == 0)
        put_list(file, schema->children[0], array->children[0], place(array, is_large, row),
                 place(array, is_large, row + 1));
    else
        fprintf(file, "the format %s", format);
    fputc(',', file);
}

/* Moves a column of so many rows, writes it, and releases it. ENDS gets where the text of each row ends. What it gives
 * is freed by free_text. */
char *column_text(struct ArrowSchema *schema, struct ArrowArray *array, int64_t rows, int64_t *ends)
{
    struct ArrowSchema type = *schema;
    struct ArrowArray column = *array;
    char *text = NULL;
    size_t size = 0;
    int64_t row;
    FILE *file = open_memstream(&text, &size);
    schema->release = NULL;
    array->release = NULL;
    for (row = 0; row < rows && row < column.length; row++) {
        put(file, &type, &column, row);
        ends[row] = ftell(file);
    }
    fclose(file);
    type.release(&type);
    column.release(&column);
    return type.release == NULL && column.release == NULL && column.length == rows ? text : NULL;
}

void free_text(char *text)
{
    free(text);
}
