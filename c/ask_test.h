/* The parts of ask_test: each makes its cases and counts what is wrong. */
#ifndef ASK_TEST_H
#define ASK_TEST_H

#include "dossier_ask.h"
#include "records.h"

struct question {
    uint8_t role, user;
    int64_t time;
    struct place at;
    uint16_t name;
    uint8_t action;
};

/* What one question about one image must give, for lent buffers of 0, 7, 8, 9 and more bytes and for any steps beyond
 * the length: expected, or 9 where a grant has no room; on a grant the two sets; no other byte altered. */
void expect(const char *what, const struct image *image, struct question q, uint32_t expected, uint32_t messages,
            uint32_t agreements);

void expect_refused(const char *what, const struct image *image, struct question q, uint32_t expected);

/* The same for one length of lent buffer. */
void expect_with_room(const char *what, const struct image *image, struct question q, size_t room, uint32_t expected);

/* The image that most cases are about (its records are listed in ask_test.c), and an owner's question about it. */
void sample_image(struct image *i);
struct question owners_question(void);

void test_bad_images(void);
void test_full_images(void);

#endif
