/* Cases at the bounds of an image, and one record beyond each. */
#include <stdio.h>

#include "ask_test.h"

/* The root with 32 children and further nodes below the first: 64 for 31. */
static void put_tree(struct image *i, unsigned below)
{
    char path[8];
    put_node(i, "/", 1);
    for (unsigned n = 1; n <= 32; n++) {
        snprintf(path, sizeof path, "%u", n % 64);
        put_node(i, path, 1);
    }
    for (unsigned n = 1; n <= below; n++) {
        snprintf(path, sizeof path, "1.%u", n % 64);
        put_node(i, path, 2);
    }
}

/* on_root attributes of the root, then 16 on each child while they last. */
static void put_attributes(struct image *i, unsigned count, unsigned on_root)
{
    char path[8] = "/";
    for (unsigned n = 0; n < count; n++) {
        if (n >= on_root)
            snprintf(path, sizeof path, "%u", (1 + (n - on_root) / 16) % 64);
        put_whole(i, path, (uint16_t)(1000 + n), 1, n);
    }
}

/* One second each for role 2, all of them on the root. */
static void put_permissions(struct image *i, unsigned count)
{
    for (unsigned n = 0; n < count; n++)
        put_permission(i, "/", 0, PERMISSION(2, 1, 0, 2 * n, 2 * n, n, 0));
}

static void make_image(struct image *i, unsigned below, unsigned attributes, unsigned on_root, unsigned permissions)
{
    i->len = 0;
    put_tree(i, below);
    put_attributes(i, attributes, on_root);
    put_permissions(i, permissions);
}

static struct question about(uint8_t user, int64_t time, const char *path, uint16_t name)
{
    return (struct question){2, user, time, place_of(path), name, DOSSIER_READ};
}

static void test_full(void)
{
    struct image i;
    make_image(&i, 31, 256, 16, 128);
    expect("448 records, owner", &i, about(1, 0, "32", 0), DOSSIER_GRANTED, 0, 0);
    expect("448 records, last node", &i, about(2, 0, "1.31", 0), DOSSIER_GRANTED, 0, 0);
    expect("448 records, last attribute", &i, about(1, 0, "15", 1255), DOSSIER_GRANTED, 0, 0);
    expect("448 records, first permission", &i, about(9, 0, "/", 0), DOSSIER_GRANTED, 0, 0);
    expect("448 records, last permission", &i, about(9, 254, "/", 0), DOSSIER_GRANTED, 127, 0);
    expect_refused("448 records, between two permissions", &i, about(9, 253, "/", 0), DOSSIER_NOT_GRANTED);
    expect_refused("448 records, after the last", &i, about(9, 255, "/", 0), DOSSIER_NOT_GRANTED);
    expect_refused("448 records, no such child", &i, about(1, 0, "1.32", 0), DOSSIER_ABSENT);
    i.len--;
    expect_refused("17,919 bytes", &i, about(1, 0, "/", 0), DOSSIER_BAD_IMAGE);
    i.bytes[i.len++] = 0;
    i.bytes[i.len++] = 0;
    expect_refused("17,921 bytes", &i, about(1, 0, "/", 0), DOSSIER_BAD_IMAGE);
    make_image(&i, 31, 256, 16, 129);
    expect_refused("17,960 bytes", &i, about(1, 0, "/", 0), DOSSIER_BAD_IMAGE);
}

static void test_beyond(void)
{
    struct image i;
    struct question owner = owners_question();
    make_image(&i, 31, 0, 0, 0);
    expect("64 nodes", &i, owner, DOSSIER_GRANTED, 0, 0);
    make_image(&i, 32, 0, 0, 0);
    expect_refused("65 nodes", &i, owner, DOSSIER_BAD_IMAGE);
    make_image(&i, 0, 256, 16, 0);
    expect("256 attributes", &i, owner, DOSSIER_GRANTED, 0, 0);
    make_image(&i, 0, 257, 16, 0);
    expect_refused("257 attributes", &i, owner, DOSSIER_BAD_IMAGE);
    make_image(&i, 0, 17, 17, 0);
    expect_refused("17 attributes on the root", &i, owner, DOSSIER_BAD_IMAGE);
    make_image(&i, 0, 16, 16, 0);
    expect("16 attributes on the root", &i, owner, DOSSIER_GRANTED, 0, 0);
    make_image(&i, 0, 0, 0, 128);
    expect("128 permissions", &i, owner, DOSSIER_GRANTED, 0, 0);
    make_image(&i, 0, 0, 0, 129);
    expect_refused("129 permissions", &i, owner, DOSSIER_BAD_IMAGE);
}

void test_full_images(void)
{
    test_full();
    test_beyond();
}
