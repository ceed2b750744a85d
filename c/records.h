/* Images written record by record, good ones and bad ones, for the tests of ask. */
#ifndef RECORDS_H
#define RECORDS_H

#include <stddef.h>
#include <stdint.h>

struct image {
    size_t len;
    uint8_t bytes[18040]; /* the longest good image and three records more */
};

struct place {
    uint8_t len;
    uint8_t step[6];
};

/* A path as 2.1.4, or / for the root. */
struct place place_of(const char *path);

void put_node(struct image *i, const char *path, uint8_t owner);
void put_whole(struct image *i, const char *path, uint16_t name, uint8_t owner, uint32_t whole);
void put_reading(struct image *i, const char *path, uint16_t name, uint8_t owner, uint32_t bits);

struct terms_of_permission {
    uint8_t role, action, user;
    int64_t first, last;
    uint32_t messages, agreements;
};

#define PERMISSION(...) ((struct terms_of_permission){__VA_ARGS__})

void put_permission(struct image *i, const char *path, uint16_t name, struct terms_of_permission p);

/* One byte of a record, counted from 1, set to n. */
void set_byte(struct image *i, size_t record, size_t byte, uint8_t n);
void drop_record(struct image *i, size_t record);
void swap_records(struct image *i, size_t a, size_t b);

#endif
