#include "records.h"

#include <string.h>

enum { RECORD = 40 };

struct place place_of(const char *path)
{
    struct place p = {0, {0, 0, 0, 0, 0, 0}};
    if (path[0] == '/')
        return p;
    unsigned step = 0;
    for (const char *c = path;; c++) {
        if (*c >= '0' && *c <= '9') {
            step = step * 10 + (unsigned)(*c - '0');
            continue;
        }
        p.step[p.len++] = (uint8_t)step;
        step = 0;
        if (*c == 0)
            return p;
    }
}

static void put_big(uint8_t *out, uint64_t n, size_t bytes)
{
    for (size_t i = 0; i < bytes; i++)
        out[i] = (uint8_t)(n >> 8 * (bytes - 1 - i));
}

static uint8_t *put_record(struct image *i, uint8_t kind, const char *path, uint16_t name)
{
    struct place p = place_of(path);
    uint8_t *record = i->bytes + i->len;
    memset(record, 0, RECORD);
    record[0] = kind;
    record[1] = p.len;
    memcpy(record + 2, p.step, sizeof p.step);
    put_big(record + 8, name, 2);
    i->len += RECORD;
    return record;
}

void put_node(struct image *i, const char *path, uint8_t owner)
{
    put_record(i, 1, path, 0)[10] = owner;
}

static void put_attribute(struct image *i, const char *path, uint16_t name, uint8_t owner, uint8_t kind, uint32_t bits)
{
    uint8_t *record = put_record(i, 2, path, name);
    record[10] = owner;
    record[14] = kind;
    put_big(record + 16, bits, 4);
}

void put_whole(struct image *i, const char *path, uint16_t name, uint8_t owner, uint32_t whole)
{
    put_attribute(i, path, name, owner, 1, whole);
}

void put_reading(struct image *i, const char *path, uint16_t name, uint8_t owner, uint32_t bits)
{
    put_attribute(i, path, name, owner, 2, bits);
}

void put_permission(struct image *i, const char *path, uint16_t name, struct terms_of_permission p)
{
    uint8_t *record = put_record(i, 3, path, name);
    record[11] = p.role;
    record[12] = p.action;
    record[13] = p.user;
    put_big(record + 16, (uint64_t)p.first, 8);
    put_big(record + 24, (uint64_t)p.last, 8);
    put_big(record + 32, p.messages, 4);
    put_big(record + 36, p.agreements, 4);
}

void set_byte(struct image *i, size_t record, size_t byte, uint8_t n)
{
    i->bytes[(record - 1) * RECORD + byte] = n;
}

void drop_record(struct image *i, size_t record)
{
    uint8_t *at = i->bytes + (record - 1) * RECORD;
    memmove(at, at + RECORD, i->len - record * RECORD);
    i->len -= RECORD;
}

void swap_records(struct image *i, size_t a, size_t b)
{
    uint8_t held[RECORD];
    uint8_t *p = i->bytes + (a - 1) * RECORD, *q = i->bytes + (b - 1) * RECORD;
    memcpy(held, p, RECORD);
    memcpy(p, q, RECORD);
    memcpy(q, held, RECORD);
}
