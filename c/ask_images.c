/* Cases about the image: each way in which one can be bad, and good ones that come close. */
#include "ask_test.h"

enum { ROOT = 1, ATTRIBUTE = 2, PERMIT = 3 };

/* Record 1 the root, 2 an attribute of it, 3 a permission on it; none needs another but the root. */
static void small_image(struct image *i)
{
    i->len = 0;
    put_node(i, "/", 1);
    put_reading(i, "/", 5, 1, UINT32_C(0x3f800000));
    put_permission(i, "/", 0, PERMISSION(2, 1, 7, 0, 10, 1, 1));
}

static void bad(const char *what, const struct image *i)
{
    expect_refused(what, i, owners_question(), DOSSIER_BAD_IMAGE);
}

static void good(const char *what, const struct image *i)
{
    expect(what, i, owners_question(), DOSSIER_GRANTED, 0, 0);
}

static void bad_byte(const char *what, size_t record, size_t byte, uint8_t n)
{
    struct image i;
    small_image(&i);
    set_byte(&i, record, byte, n);
    bad(what, &i);
}

static void good_byte(const char *what, size_t record, size_t byte, uint8_t n)
{
    struct image i;
    small_image(&i);
    set_byte(&i, record, byte, n);
    good(what, &i);
}

static void bad_bytes(const char *what, size_t record, size_t from, size_t last)
{
    for (size_t byte = from; byte <= last; byte++) {
        bad_byte(what, record, byte, 1);
        bad_byte(what, record, byte, 255);
    }
}

static void test_lengths(void)
{
    struct image i;
    small_image(&i);
    for (i.len = 0; i.len <= 120; i.len++)
        if (i.len > 0 && i.len % 40 == 0)
            good("a whole number of records", &i);
        else
            bad("no whole number of records", &i);
}

static void test_node_fields(void)
{
    struct image i;
    bad_byte("kind 0", ROOT, 0, 0);
    bad_byte("kind 4", PERMIT, 0, 4);
    bad_byte("kind 255", PERMIT, 0, 255);
    bad_bytes("a step beyond the length", ROOT, 2, 7);
    bad_bytes("a node's name", ROOT, 8, 9);
    bad_byte("owner 0", ROOT, 10, 0);
    bad_byte("owner 65", ROOT, 10, 65);
    bad_byte("owner 255", ROOT, 10, 255);
    bad_bytes("a field that a node does not use", ROOT, 11, 39);
    i.len = 0;
    put_node(&i, "/", 1);
    set_byte(&i, 1, 9, 1);
    bad("a name on a root alone", &i);
    i.len = 0;
    put_node(&i, "/", 1);
    put_node(&i, "1", 64);
    good("owner 64", &i);
    set_byte(&i, 2, 8, 1);
    bad("a name of 256 on a node", &i);
    set_byte(&i, 2, 8, 0);
    set_byte(&i, 2, 9, 1);
    bad("a name of 1 on a node", &i);
    set_byte(&i, 2, 9, 0);
    set_byte(&i, 2, 2, 0);
    bad("step 0", &i);
    set_byte(&i, 2, 2, 33);
    bad("step 33", &i);
    set_byte(&i, 2, 2, 1);
    set_byte(&i, 2, 1, 7);
    bad("length 7", &i);
    set_byte(&i, 2, 1, 1);
    set_byte(&i, 2, 3, 1);
    bad("a step beyond the length 1", &i);
}

static void test_values(void)
{
    static const uint32_t finite[] = {0, 1, 0x80000000, 0x80000001, 0x7f7fffff, 0xff7fffff, 0x00800000};
    static const uint32_t not_finite[] = {0x7f800000, 0xff800000, 0x7fc00000, 0x7f800001, 0xffffffff};
    struct image i;
    for (size_t n = 0; n < sizeof finite / sizeof finite[0]; n++) {
        i.len = 0;
        put_node(&i, "/", 1);
        put_reading(&i, "/", 5, 1, finite[n]);
        good("a finite reading", &i);
    }
    for (size_t n = 0; n < sizeof not_finite / sizeof not_finite[0]; n++) {
        i.len = 0;
        put_node(&i, "/", 1);
        put_reading(&i, "/", 5, 1, not_finite[n]);
        bad("a reading that is not finite", &i);
        set_byte(&i, 2, 14, 1);
        good("its bits as a whole number", &i);
    }
}

static void test_attribute_fields(void)
{
    bad_byte("an attribute without a name", ATTRIBUTE, 9, 0);
    good_byte("another name", ATTRIBUTE, 8, 255);
    bad_byte("an attribute's owner 0", ATTRIBUTE, 10, 0);
    bad_byte("an attribute's owner 65", ATTRIBUTE, 10, 65);
    good_byte("an attribute's owner 64", ATTRIBUTE, 10, 64);
    bad_bytes("role, action or user of an attribute", ATTRIBUTE, 11, 13);
    bad_byte("value kind 0", ATTRIBUTE, 14, 0);
    bad_byte("value kind 3", ATTRIBUTE, 14, 3);
    bad_byte("value kind 255", ATTRIBUTE, 14, 255);
    bad_bytes("an attribute's byte 15", ATTRIBUTE, 15, 15);
    bad_bytes("a field that an attribute does not use", ATTRIBUTE, 20, 39);
    bad_bytes("a step beyond an attribute's length", ATTRIBUTE, 2, 7);
}

static void test_permission_fields(void)
{
    bad_bytes("a permission's owner", PERMIT, 10, 10);
    bad_byte("role 0", PERMIT, 11, 0);
    bad_byte("role 16", PERMIT, 11, 16);
    good_byte("role 15", PERMIT, 11, 15);
    bad_byte("action 0", PERMIT, 12, 0);
    bad_byte("action 5", PERMIT, 12, 5);
    good_byte("action change of a node", PERMIT, 12, 2);
    good_byte("action print", PERMIT, 12, 3);
    good_byte("action delegate", PERMIT, 12, 4);
    good_byte("any user", PERMIT, 13, 0);
    good_byte("user 64", PERMIT, 13, 64);
    bad_byte("user 65", PERMIT, 13, 65);
    bad_bytes("a permission's value kind and byte 15", PERMIT, 14, 15);
    bad_byte("an interval that ends before it starts", PERMIT, 23, 11);
    good_byte("an interval of one second", PERMIT, 23, 10);
    good_byte("a negative first time", PERMIT, 16, 128);
    bad_byte("a negative last time", PERMIT, 24, 128);
    bad_bytes("a step beyond a permission's length", PERMIT, 2, 7);
    for (size_t byte = 32; byte < 40; byte++)
        good_byte("any messages and agreements", PERMIT, byte, 255);
    bad_byte("a permission on an absent attribute", PERMIT, 9, 6);
    good_byte("a permission on the attribute", PERMIT, 9, 5);
}

static void with_permission(struct image *i, const char *path, uint16_t name, uint8_t action)
{
    i->len = 0;
    put_node(i, "/", 1);
    put_whole(i, "/", 5, 1, 0);
    put_permission(i, path, name, PERMISSION(2, action, 0, 0, 0, 0, 0));
}

static void test_permission_objects(void)
{
    struct image i;
    with_permission(&i, "/", 5, 2);
    bad("a change permission on an attribute", &i);
    with_permission(&i, "/", 5, 3);
    good("a print permission on an attribute", &i);
    with_permission(&i, "/", 5, 4);
    good("a delegate permission on an attribute", &i);
    with_permission(&i, "1", 0, 1);
    bad("a permission on an absent node", &i);
    with_permission(&i, "1", 5, 1);
    bad("a permission on an attribute of an absent node", &i);
}

static void two_permissions(struct image *i, struct terms_of_permission a, struct terms_of_permission b)
{
    i->len = 0;
    put_node(i, "/", 1);
    put_permission(i, "/", 0, a);
    put_permission(i, "/", 0, b);
}

static void test_clashes(void)
{
    struct image i;
    two_permissions(&i, PERMISSION(2, 1, 0, 0, 9, 0, 0), PERMISSION(2, 1, 0, -5, 0, 0, 0));
    bad("intervals that share time 0", &i);
    two_permissions(&i, PERMISSION(2, 1, 0, 0, 9, 0, 0), PERMISSION(2, 1, 0, -5, -1, 0, 0));
    good("intervals side by side", &i);
    two_permissions(&i, PERMISSION(2, 1, 0, -5, -1, 0, 0), PERMISSION(2, 1, 0, 0, 9, 0, 0));
    bad("negative times before the others", &i);
    two_permissions(&i, PERMISSION(2, 1, 3, 0, 9, 0, 0), PERMISSION(2, 1, 4, -5, 0, 0, 0));
    good("users 3 and 4", &i);
    two_permissions(&i, PERMISSION(2, 1, 0, 0, 9, 0, 0), PERMISSION(2, 1, 3, -5, 0, 0, 0));
    bad("any user and user 3", &i);
    two_permissions(&i, PERMISSION(2, 1, 3, 0, 9, 0, 0), PERMISSION(2, 1, 3, 9, 9, 0, 0));
    bad("user 3 twice", &i);
    two_permissions(&i, PERMISSION(2, 1, 0, 0, 9, 0, 0), PERMISSION(2, 1, 0, 0, 9, 1, 0));
    bad("permissions that differ in a message", &i);
    two_permissions(&i, PERMISSION(2, 1, 0, 0, 9, 0, 0), PERMISSION(2, 1, 0, 0, 9, 0, 0));
    bad("one permission twice", &i);
    two_permissions(&i, PERMISSION(2, 1, 0, 0, 9, 0, 0), PERMISSION(2, 2, 0, 0, 9, 0, 0));
    good("two actions", &i);
    two_permissions(&i, PERMISSION(2, 1, 0, 0, 9, 0, 0), PERMISSION(3, 1, 0, 0, 9, 0, 0));
    good("two roles", &i);
    two_permissions(&i, PERMISSION(2, 1, 0, 0, 2, 0, 0), PERMISSION(2, 1, 0, 3, 9, 0, 0));
    put_permission(&i, "/", 0, PERMISSION(2, 1, 5, 1, 1, 0, 0));
    bad("a clash with one that does not stand beside it", &i);
}

/* Nodes of the given paths, user 1's; NULL ends them. */
static void nodes(struct image *i, const char *const *paths)
{
    i->len = 0;
    for (; *paths != NULL; paths++)
        put_node(i, *paths, 1);
}

#define NODES(i, ...) nodes(i, (const char *const[]){__VA_ARGS__, NULL})

static void test_tree(void)
{
    struct image i;
    NODES(&i, "1");
    bad("no root", &i);
    NODES(&i, "1", "/");
    bad("the root second", &i);
    NODES(&i, "/", "2");
    bad("no left sibling", &i);
    NODES(&i, "/", "1", "3");
    bad("a gap between siblings", &i);
    NODES(&i, "/", "1", "2.1");
    bad("no parent", &i);
    NODES(&i, "/", "1", "1.2");
    bad("no left sibling below", &i);
    NODES(&i, "/", "1", "1.1.1");
    bad("no node between", &i);
    NODES(&i, "/", "1", "1.1", "2");
    bad("a longer path before a shorter", &i);
    NODES(&i, "/", "2", "1");
    bad("siblings out of order", &i);
    NODES(&i, "/", "1", "1");
    bad("one record twice", &i);
    NODES(&i, "/", "1", "2", "3", "4", "5", "6", "7", "8", "9", "10", "11", "10.1", "10.2");
    good("steps in the order of numbers", &i);
    NODES(&i, "/", "1", "10", "11", "2", "3", "4", "5", "6", "7", "8", "9");
    bad("steps in the order of text", &i);
    NODES(&i, "/", "1");
    put_node(&i, "1", 2);
    bad("a second record for a node", &i);
    NODES(&i, "/");
    put_node(&i, "/", 2);
    bad("a second root", &i);
}

static void test_order_of_kinds(void)
{
    struct image i;
    sample_image(&i);
    swap_records(&i, 9, 10);
    bad("attributes out of order", &i);
    sample_image(&i);
    swap_records(&i, 13, 14);
    bad("a permission before an attribute", &i);
    sample_image(&i);
    swap_records(&i, 8, 9);
    bad("an attribute before a node", &i);
    sample_image(&i);
    drop_record(&i, 13);
    bad("a permission without its attribute", &i);
    sample_image(&i);
    drop_record(&i, 8);
    bad("an attribute without its node", &i);
    sample_image(&i);
    drop_record(&i, 1);
    bad("all but the root", &i);
    i.len = 0;
    put_whole(&i, "/", 5, 1, 7);
    bad("an attribute alone, as a clipboard may hold it", &i);
    put_permission(&i, "/", 5, PERMISSION(2, 1, 0, 0, 9, 0, 0));
    bad("the same with a permission", &i);
    i.len = 0;
    put_permission(&i, "/", 0, PERMISSION(2, 1, 0, 0, 9, 0, 0));
    bad("a permission alone", &i);
    NODES(&i, "/");
    put_whole(&i, "/", 5, 1, 7);
    put_whole(&i, "/", 5, 2, 7);
    bad("a second record for an attribute, by owner", &i);
    NODES(&i, "/");
    put_whole(&i, "/", 5, 1, 7);
    put_whole(&i, "/", 5, 1, 8);
    bad("a second record for an attribute, by value", &i);
}

void test_bad_images(void)
{
    test_lengths();
    test_node_fields();
    test_values();
    test_attribute_fields();
    test_permission_fields();
    test_permission_objects();
    test_clashes();
    test_tree();
    test_order_of_kinds();
}
