/* Compares dossier_ask with the plain C on many images, good ones and spoilt ones, and many questions:
 *   ask_agree [QUESTIONS]
 * The images are what the plain editor saves after random requests; about half are then spoilt in some bytes. */
#include <stdio.h>
#include <stdlib.h>
#include <string.h>

#include "dossier_ask.h"
#include "plain.h"

enum { QUESTIONS_PER_IMAGE = 16, ROOM = 16, BLANK = 0xa5 };

static uint64_t seed = UINT64_C(0x9e3779b97f4a7c15);

static uint32_t random_below(uint32_t n)
{
    seed ^= seed << 13;
    seed ^= seed >> 7;
    seed ^= seed << 17;
    return (uint32_t)(seed >> 33) % n;
}

static uint8_t byte_below(uint32_t n)
{
    return (uint8_t)random_below(n);
}

/* Mostly in range and near what is there. */
static struct path random_path(void)
{
    struct path p = {byte_below(5), {1, 1, 1, 1, 1, 1}};
    for (unsigned n = 0; n < MAX_DEPTH; n++)
        p.step[n] = (uint8_t)(1 + random_below(3));
    if (random_below(40) == 0)
        p.len = byte_below(9);
    if (random_below(40) == 0)
        p.step[random_below(MAX_DEPTH)] = byte_below(40);
    return p;
}

static int64_t random_time(void)
{
    static const int64_t far[] = {INT64_MIN, INT64_MIN + 1, INT64_MAX - 1, INT64_MAX};
    return random_below(30) == 0 ? far[random_below(4)] : (int64_t)random_below(20) - 10;
}

/* Mostly requests that add, so that there is something to ask about. */
static struct request random_request(void)
{
    static const uint8_t adding[] = {3, 8, 14, 14, 14, 14};
    struct request r = {
        .number = random_below(8) == 0 ? (uint8_t)(1 + random_below(16)) : adding[random_below(sizeof adding)],
        .dossier = 1, .role = (uint8_t)(1 + random_below(3)),
        .user = (uint8_t)(random_below(3) == 0 ? 1 + random_below(3) : 1), .time = random_time(), .path = random_path(),
        .name = (uint16_t)random_below(5), .value = {.kind = WHOLE, .whole = random_below(100)}};
    r.permission = (struct permission){
        (uint8_t)(1 + random_below(3)), (uint8_t)(1 + random_below(4)), byte_below(4), random_time(), random_time(),
        random_below(16), random_below(4) == 0 ? random_below(16) : 0};
    return r;
}

static size_t random_image(struct session *s, uint8_t *image)
{
    struct answer answer;
    size_t len, ignored;
    uint8_t log[2 * MAX_LOG];
    for (unsigned n = 0; n < 60; n++) {
        struct request r = random_request();
        plain_request(s, &r, &answer);
    }
    plain_take_log(s, log, sizeof log, &ignored);
    plain_save(s, 1, image, MAX_IMAGE_BYTES, &len);
    return len;
}

static size_t spoil(uint8_t *image, size_t len)
{
    static const uint8_t near[] = {0, 1, 2, 3, 4, 5, 7, 16, 33, 65, 128, 255};
    uint8_t held[RECORD_BYTES];
    size_t records = len / RECORD_BYTES, a = random_below((uint32_t)records), b = random_below((uint32_t)records);
    switch (random_below(6)) {
    case 0:
        return random_below(2) == 0 ? len - random_below((uint32_t)len + 1) : a * RECORD_BYTES;
    case 1:
        memcpy(held, image + a * RECORD_BYTES, RECORD_BYTES);
        memcpy(image + a * RECORD_BYTES, image + b * RECORD_BYTES, RECORD_BYTES);
        memcpy(image + b * RECORD_BYTES, held, RECORD_BYTES);
        return len;
    case 2:
        memmove(image + a * RECORD_BYTES, image + (a + 1) * RECORD_BYTES, len - (a + 1) * RECORD_BYTES);
        return len - RECORD_BYTES;
    default:
        image[a * RECORD_BYTES + random_below(RECORD_BYTES)] = near[random_below(sizeof near)];
        return len;
    }
}

struct question {
    uint8_t role, user, action;
    uint16_t name;
    int64_t time;
    struct path path;
    size_t room;
};

/* The object of some record, if there is one whole record. */
static void choose_object(struct question *q, const uint8_t *image, size_t len)
{
    if (len < RECORD_BYTES)
        return;
    const uint8_t *record = image + random_below((uint32_t)(len / RECORD_BYTES)) * RECORD_BYTES;
    q->path.len = record[1];
    memcpy(q->path.step, record + 2, sizeof q->path.step);
    q->name = (uint16_t)(record[8] << 8 | record[9]);
}

static struct question random_question(const uint8_t *image, size_t len)
{
    static const size_t rooms[] = {0, 7, 8, 9, ROOM};
    struct question q = {(uint8_t)(1 + random_below(3)), (uint8_t)(1 + random_below(3)), (uint8_t)(1 + random_below(2)),
                         (uint16_t)random_below(5), random_time(), random_path(), 8};
    if (random_below(5) != 0)
        choose_object(&q, image, len);
    if (random_below(20) == 0)
        q.role = byte_below(20);
    if (random_below(20) == 0)
        q.user = byte_below(70);
    if (random_below(20) == 0)
        q.action = byte_below(6);
    if (random_below(4) == 0)
        q.room = rooms[random_below(5)];
    return q;
}

/* Both calls on the same bytes; true if number and every byte are the same. Counts the answers. */
static int agree(const uint8_t *image, size_t len, const struct question *q, unsigned long *answers)
{
    uint8_t ours[ROOM], theirs[ROOM];
    const uint8_t *s = q->path.step;
    memset(ours, BLANK, ROOM);
    memset(theirs, BLANK, ROOM);
    uint32_t expected = (uint32_t)plain_ask(image, len, q->role, q->user, q->time, &q->path, q->name, q->action, ours,
                                            q->room);
    uint32_t got = dossier_ask(image, len, q->role, q->user, q->time, q->path.len, s[0], s[1], s[2], s[3], s[4], s[5],
                               q->name, q->action, theirs, q->room);
    answers[expected]++;
    return got == expected && memcmp(ours, theirs, ROOM) == 0;
}

int main(int argc, char **argv)
{
    static struct session s;
    static uint8_t image[MAX_IMAGE_BYTES];
    unsigned long wanted = argc > 1 ? strtoul(argv[1], NULL, 10) : 100000, asked = 0, differ = 0;
    unsigned long answers[BAD_IMAGE + 1] = {0};
    plain_start(&s);
    for (unsigned long n = 0; asked < wanted; n++) {
        if (n % 50 == 0)
            plain_start(&s);
        size_t len = random_image(&s, image);
        if (random_below(2) == 0)
            len = spoil(image, len);
        for (unsigned k = 0; k < QUESTIONS_PER_IMAGE; k++, asked++) {
            struct question q = random_question(image, len);
            differ += agree(image, len, &q, answers) ? 0 : 1;
        }
    }
    printf("ask_agree: %lu questions, %lu differ (granted %lu, refused 1 %lu, 3 %lu, 6 %lu, 9 %lu, 12 %lu)\n", asked,
           differ, answers[0], answers[1], answers[3], answers[6], answers[9], answers[12]);
    return differ == 0 ? 0 : 1;
}
