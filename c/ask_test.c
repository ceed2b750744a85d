/* Calls dossier_ask on every case of a table and fails on any wrong number or byte. */
#define _DEFAULT_SOURCE
#include "ask_test.h"

#include <stdbool.h>
#include <stdio.h>
#include <stdlib.h>
#include <string.h>
#include <sys/mman.h>

enum { GUARD = 16, LONGEST_ROOM = 64, BLANK = 0xa5, REGION = 1 << 16 };

static unsigned long cases, wrong;
static uint8_t *image_end; /* the first byte of a page that cannot be read */

static void lend_pages(void)
{
    uint8_t *region = mmap(NULL, 2 * REGION, PROT_READ | PROT_WRITE, MAP_PRIVATE | MAP_ANONYMOUS, -1, 0);
    if (region == MAP_FAILED || mprotect(region + REGION, REGION, PROT_NONE) != 0) {
        perror("ask_test: no memory");
        exit(2);
    }
    image_end = region + REGION;
}

static void complain(const char *what, size_t room, const char *fault, uint32_t got, uint32_t expected)
{
    wrong++;
    printf("wrong: %s, %zu bytes lent: %s (got %u, expected %u)\n", what, room, fault, (unsigned)got,
           (unsigned)expected);
}

static uint32_t ask(const struct image *image, const struct question *q, uint8_t beyond, uint8_t *out, size_t room)
{
    uint8_t *lent = memcpy(image_end - image->len, image->bytes, image->len);
    uint8_t s[6];
    for (unsigned n = 0; n < 6; n++)
        s[n] = n < q->at.len ? q->at.step[n] : beyond;
    return dossier_ask(lent, image->len, q->role, q->user, q->time, q->at.len, s[0], s[1], s[2], s[3], s[4], s[5],
                       q->name, q->action, out, room);
}

static void put32(uint8_t *out, uint32_t n)
{
    for (unsigned i = 0; i < 4; i++)
        out[i] = (uint8_t)(n >> (24 - 8 * i));
}

/* One call, with a pattern around the lent buffer. */
static void expect_once(const char *what, const struct image *image, const struct question *q, uint8_t beyond,
                        size_t room, uint32_t expected, uint32_t messages, uint32_t agreements)
{
    uint8_t out[GUARD + LONGEST_ROOM + GUARD], kept[sizeof out];
    memset(out, BLANK, sizeof out);
    memset(kept, BLANK, sizeof kept);
    if (expected == DOSSIER_GRANTED) {
        put32(kept + GUARD, messages);
        put32(kept + GUARD + 4, agreements);
    }
    uint32_t got = ask(image, q, beyond, out + GUARD, room);
    cases++;
    if (got != expected)
        complain(what, room, "number", got, expected);
    else if (memcmp(out, kept, sizeof out) != 0)
        complain(what, room, "a byte of the lent buffer or around it", got, expected);
    else if (memcmp(image_end - image->len, image->bytes, image->len) != 0)
        complain(what, room, "the image was altered", got, expected);
}

void expect_with_room(const char *what, const struct image *image, struct question q, size_t room, uint32_t expected)
{
    expect_once(what, image, &q, 0, room, expected, 0, 0);
}

void expect(const char *what, const struct image *image, struct question q, uint32_t expected, uint32_t messages,
            uint32_t agreements)
{
    static const size_t rooms[] = {0, 7, 8, 9, LONGEST_ROOM};
    static const uint8_t beyond[] = {0, 1, 33, 255};
    for (size_t i = 0; i < sizeof rooms / sizeof rooms[0]; i++)
        for (size_t j = 0; j < sizeof beyond; j++) {
            bool no_room = expected == DOSSIER_GRANTED && rooms[i] < DOSSIER_ASK_BYTES;
            expect_once(what, image, &q, beyond[j], rooms[i], no_room ? DOSSIER_NO_ROOM : expected, messages,
                        agreements);
        }
}

void expect_refused(const char *what, const struct image *image, struct question q, uint32_t expected)
{
    expect(what, image, q, expected, 0, 0);
}

/* Records 1 to 8 nodes, 9 to 13 attributes, 14 to 33 permissions. */
void sample_image(struct image *i)
{
    static const char deep[] = "1.1.1.1.1.1";
    i->len = 0;
    put_node(i, "/", 1);
    put_node(i, "1", 2);
    put_node(i, "2", 64);
    put_node(i, "1.1", 3);
    put_node(i, "1.1.1", 3);
    put_node(i, "1.1.1.1", 3);
    put_node(i, "1.1.1.1.1", 3);
    put_node(i, deep, 4);
    put_whole(i, "/", 5, 1, 7);
    put_whole(i, "/", 6, 9, UINT32_MAX);
    put_reading(i, "1", 300, 1, UINT32_C(0x3fc00000));
    put_whole(i, "1", 65535, 2, UINT32_C(0x7fc00000));
    put_reading(i, deep, 9, 5, UINT32_C(0x80000000));
    put_permission(i, "/", 0, PERMISSION(2, 1, 0, 0, 10, 1, 2));
    put_permission(i, "/", 0, PERMISSION(2, 2, 7, 5, 20, 5, 10));
    put_permission(i, "/", 0, PERMISSION(3, 2, 0, 0, 10, 16, 16));
    put_permission(i, "/", 0, PERMISSION(4, 1, 0, 0, 9, 0x20, 0x40));
    put_permission(i, "/", 0, PERMISSION(4, 1, 0, -5, -1, 0x80, 0x100));
    put_permission(i, "/", 0, PERMISSION(5, 1, 7, 0, 100, 0x200, 0));
    put_permission(i, "/", 0, PERMISSION(5, 1, 8, 0, 100, 0, 0x400));
    put_permission(i, "/", 0, PERMISSION(6, 3, 0, 0, 100, 1, 1));
    put_permission(i, "/", 0, PERMISSION(6, 4, 0, 0, 100, 1, 1));
    put_permission(i, "/", 0, PERMISSION(7, 1, 0, INT64_MIN, INT64_MAX, UINT32_MAX, 0));
    put_permission(i, "/", 5, PERMISSION(2, 1, 0, 0, 10, UINT32_C(0x80000001), 0x800));
    put_permission(i, "/", 5, PERMISSION(8, 1, 0, 0, 10, 3, 3));
    put_permission(i, "/", 6, PERMISSION(6, 4, 0, 0, 10, 0, 0));
    put_permission(i, "/", 6, PERMISSION(8, 1, 0, 0, 10, 0x10000, 0));
    put_permission(i, "1", 0, PERMISSION(2, 1, 0, 0, 10, 0x1000, 0));
    put_permission(i, "1", 0, PERMISSION(2, 2, 0, 0, 10, 0, 0x2000));
    put_permission(i, "1", 300, PERMISSION(2, 1, 64, 3, 3, 0x4000, 0x4000));
    put_permission(i, "2", 0, PERMISSION(15, 1, 64, 0, 0, 0, 0));
    put_permission(i, deep, 0, PERMISSION(9, 1, 0, 0, 0, 1, 0));
    put_permission(i, deep, 9, PERMISSION(9, 1, 0, 0, 0, 0, 1));
}

struct question owners_question(void)
{
    return (struct question){1, 1, 0, place_of("/"), 0, DOSSIER_READ};
}

static struct question question(uint8_t role, uint8_t user, int64_t time, const char *path, uint16_t name,
                                uint8_t action)
{
    return (struct question){role, user, time, place_of(path), name, action};
}

/* Owners are granted with no provisions, whatever the role and the time. */
static void test_owners(const struct image *i)
{
    expect("owner reads the root", i, question(1, 1, 0, "/", 0, 1), 0, 0, 0);
    expect("owner changes the root", i, question(1, 1, 0, "/", 0, 2), 0, 0, 0);
    expect("owner whose role has a permission", i, question(2, 1, 5, "/", 0, 1), 0, 0, 0);
    expect("owner at the least time", i, question(15, 1, INT64_MIN, "/", 0, 2), 0, 0, 0);
    expect("owner at the greatest time", i, question(15, 1, INT64_MAX, "/", 0, 2), 0, 0, 0);
    expect("user 64 reads node 2", i, question(1, 64, 0, "2", 0, 1), 0, 0, 0);
    expect("owner of a node six steps down", i, question(1, 4, 0, "1.1.1.1.1.1", 0, 2), 0, 0, 0);
    expect("owner reads an attribute", i, question(1, 9, 0, "/", 6, 1), 0, 0, 0);
    expect("owner of attribute and node changes it", i, question(1, 1, 0, "/", 5, 2), 0, 0, 0);
    expect("owner reads attribute 65535", i, question(1, 2, 0, "1", 65535, 1), 0, 0, 0);
    expect("owner of an attribute six steps down", i, question(1, 5, 0, "1.1.1.1.1.1", 9, 1), 0, 0, 0);
    expect_refused("owner of the parent alone", i, question(1, 1, 0, "1", 0, 1), 6);
    expect_refused("owner of a child alone", i, question(1, 2, 0, "/", 0, 1), 6);
    expect_refused("owner of the node alone reads its attribute", i, question(1, 1, 0, "/", 6, 1), 6);
    expect_refused("owner of an attribute reads its node", i, question(1, 9, 0, "/", 0, 1), 6);
    expect_refused("owner of the attribute alone changes it", i, question(1, 9, 0, "/", 6, 2), 6);
    expect_refused("owner of the node alone changes its attribute", i, question(1, 1, 0, "/", 6, 2), 6);
}

static void test_times_and_users(const struct image *i)
{
    expect_refused("before the first time", i, question(2, 20, -1, "/", 0, 1), 6);
    expect("at the first time", i, question(2, 20, 0, "/", 0, 1), 0, 1, 2);
    expect("at the last time", i, question(2, 20, 10, "/", 0, 1), 0, 1, 2);
    expect_refused("after the last time", i, question(2, 20, 11, "/", 0, 1), 6);
    expect_refused("long before", i, question(2, 20, INT64_MIN, "/", 0, 1), 6);
    expect_refused("long after", i, question(2, 20, INT64_MAX, "/", 0, 1), 6);
    expect_refused("before the negative interval", i, question(4, 20, -6, "/", 0, 1), 6);
    expect("first time of the negative interval", i, question(4, 20, -5, "/", 0, 1), 0, 0x80, 0x100);
    expect("last time of the negative interval", i, question(4, 20, -1, "/", 0, 1), 0, 0x80, 0x100);
    expect("first time of the interval beside it", i, question(4, 20, 0, "/", 0, 1), 0, 0x20, 0x40);
    expect_refused("after the interval beside it", i, question(4, 20, 10, "/", 0, 1), 6);
    expect("an interval of all times, at the least", i, question(7, 20, INT64_MIN, "/", 0, 1), 0, UINT32_MAX, 0);
    expect("an interval of all times, at the greatest", i, question(7, 20, INT64_MAX, "/", 0, 1), 0, UINT32_MAX, 0);
    expect("one user, the first", i, question(5, 7, 50, "/", 0, 1), 0, 0x200, 0);
    expect("one user, the second", i, question(5, 8, 50, "/", 0, 1), 0, 0, 0x400);
    expect_refused("one user, another", i, question(5, 9, 50, "/", 0, 1), 6);
    expect("an interval of one second", i, question(2, 64, 3, "1", 300, 1), 0, 0x4000, 0x4000);
    expect_refused("a second before it", i, question(2, 64, 2, "1", 300, 1), 6);
    expect_refused("a second after it", i, question(2, 64, 4, "1", 300, 1), 6);
    expect("a permission with no provisions", i, question(15, 64, 0, "2", 0, 1), 0, 0, 0);
}

static void test_roles_and_actions(const struct image *i)
{
    expect_refused("a role with no permission", i, question(10, 20, 5, "/", 0, 1), 6);
    expect_refused("print does not let read", i, question(6, 20, 5, "/", 0, 1), 6);
    expect_refused("print and delegate do not let change", i, question(6, 20, 5, "/", 0, 2), 6);
    expect_refused("delegate does not let read an attribute", i, question(6, 20, 5, "/", 6, 1), 6);
    expect_refused("change alone does not let change", i, question(3, 20, 5, "/", 0, 2), 6);
    expect_refused("change alone does not let read", i, question(3, 20, 5, "/", 0, 1), 6);
    expect_refused("read alone does not let change", i, question(7, 20, 5, "/", 0, 2), 6);
    expect("read and change of a node are joined", i, question(2, 7, 5, "/", 0, 2), 0, 5, 10);
    expect("both at their last shared time", i, question(2, 7, 10, "/", 0, 2), 0, 5, 10);
    expect_refused("change not yet", i, question(2, 7, 4, "/", 0, 2), 6);
    expect_refused("read no longer", i, question(2, 7, 11, "/", 0, 2), 6);
    expect_refused("change for another user", i, question(2, 8, 5, "/", 0, 2), 6);
    expect_refused("a permission on the parent alone", i, question(2, 7, 5, "1.1", 0, 1), 6);
    expect_refused("a permission on the node alone, for its attribute", i, question(4, 20, 5, "/", 5, 1), 6);
    expect_refused("a permission on the attribute alone, for its node", i, question(8, 20, 5, "/", 0, 1), 6);
}

/* Change of an attribute is read of it and change of its node. */
static void test_attributes(const struct image *i)
{
    uint32_t top = UINT32_C(0x80000001);
    expect("read of an attribute", i, question(2, 20, 5, "/", 5, 1), 0, top, 0x800);
    expect("change of an attribute, three permissions", i, question(2, 7, 5, "/", 5, 2), 0, top | 5, 0x80a);
    expect("owner of the attribute with change of the node", i, question(2, 1, 5, "1", 300, 2), 0, 0x1000, 0x2000);
    expect("one second, joined with change of the node", i, question(2, 64, 3, "1", 300, 2), 0, 0x5000, 0x6000);
    expect("owner of the node with read of the attribute", i, question(8, 1, 5, "/", 6, 2), 0, 0x10000, 0);
    expect("owner of both, other role", i, question(15, 2, 99, "1", 65535, 2), 0, 0, 0);
    expect_refused("read of the attribute, no change of the node", i, question(8, 20, 5, "/", 5, 2), 6);
    expect_refused("change of the node, no read of the attribute", i, question(2, 20, 5, "1", 65535, 2), 6);
    expect_refused("owner of the attribute, change not yet", i, question(2, 1, -1, "1", 300, 2), 6);
    expect("six steps down", i, question(9, 20, 0, "1.1.1.1.1.1", 9, 1), 0, 0, 1);
    expect("the node six steps down", i, question(9, 20, 0, "1.1.1.1.1.1", 0, 1), 0, 1, 0);
    expect_refused("no change six steps down", i, question(9, 20, 0, "1.1.1.1.1.1", 9, 2), 6);
}

static void test_absent(const struct image *i)
{
    expect_refused("no third child", i, question(1, 1, 0, "3", 0, 1), 3);
    expect_refused("no child of a leaf", i, question(1, 1, 0, "2.1", 0, 2), 3);
    expect_refused("no such parent", i, question(1, 1, 0, "32.32", 0, 1), 3);
    expect_refused("no such node six steps down", i, question(1, 1, 0, "1.1.1.1.1.2", 0, 1), 3);
    expect_refused("no such attribute", i, question(1, 1, 0, "/", 7, 1), 3);
    expect_refused("no such attribute to change", i, question(1, 1, 0, "/", 7, 2), 3);
    expect_refused("attribute of another node", i, question(1, 1, 0, "1", 5, 1), 3);
    expect_refused("attribute of an absent node", i, question(1, 1, 0, "3", 5, 2), 3);
    expect_refused("no attribute 65535 on the root", i, question(1, 1, 0, "/", 65535, 1), 3);
}

static void test_bad_operands(const struct image *i)
{
    static const uint8_t bad_steps[] = {0, 33, 255}, bad_actions[] = {0, 3, 4, 5, 255};
    struct question good = owners_question(), q;
    for (unsigned n = 0; n < 3; n++) {
        q = good, q.role = (uint8_t[]){0, 16, 255}[n];
        expect_refused("role out of range", i, q, 1);
        q = good, q.user = (uint8_t[]){0, 65, 255}[n];
        expect_refused("user out of range", i, q, 1);
        q = good, q.at.len = (uint8_t[]){7, 8, 255}[n];
        memset(q.at.step, 1, sizeof q.at.step);
        expect_refused("path too long", i, q, 1);
    }
    for (unsigned n = 0; n < 6; n++)
        for (unsigned k = 0; k < sizeof bad_steps; k++) {
            q = question(1, 4, 0, "1.1.1.1.1.1", 0, 1);
            q.at.step[n] = bad_steps[k];
            expect_refused("step out of range", i, q, 1);
        }
    for (unsigned n = 0; n < sizeof bad_actions; n++) {
        q = good, q.action = bad_actions[n];
        expect_refused("action out of range", i, q, 1);
    }
}

/* Two reasons, or more, give the earlier of 1, 12, 3, 6, 9. */
static void test_order(const struct image *good)
{
    struct image bad = *good;
    set_byte(&bad, 1, 15, 1);
    struct question owner = owners_question(), absent = owner, stranger = owner, blank = owner;
    absent.name = 7;
    stranger.user = 20;
    blank.user = 0;
    expect_with_room("9 alone", good, owner, 7, 9);
    expect_with_room("1 and 12", &bad, blank, 8, 1);
    blank.name = 7;
    expect_with_room("1 and 3", good, blank, 8, 1);
    expect_with_room("1, 12, 3 and 9", &bad, blank, 0, 1);
    blank = stranger, blank.action = 3;
    expect_with_room("1 and 6", good, blank, 8, 1);
    blank = owner, blank.role = 0;
    expect_with_room("1 and 9", good, blank, 7, 1);
    expect_with_room("12 and 3", &bad, absent, 8, 12);
    expect_with_room("12 and 6", &bad, stranger, 8, 12);
    expect_with_room("12 and 9", &bad, owner, 7, 12);
    absent.user = 20;
    expect_with_room("3 and 6", good, absent, 8, 3);
    expect_with_room("3, 6 and 9", good, absent, 0, 3);
    expect_with_room("12, 3, 6 and 9", &bad, absent, 0, 12);
    absent.user = 1;
    expect_with_room("3 and 9", good, absent, 7, 3);
    expect_with_room("6 and 9", good, stranger, 7, 6);
    expect_with_room("6 and 9, nothing lent", good, stranger, 0, 6);
}

int main(void)
{
    struct image sample;
    lend_pages();
    sample_image(&sample);
    test_owners(&sample);
    test_times_and_users(&sample);
    test_roles_and_actions(&sample);
    test_attributes(&sample);
    test_absent(&sample);
    test_bad_operands(&sample);
    test_order(&sample);
    test_bad_images();
    test_full_images();
    printf("ask_test: %lu cases, %lu wrong\n", cases, wrong);
    return wrong == 0 ? 0 : 1;
}
