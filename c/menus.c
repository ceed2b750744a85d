/* Greys out a menu: for every object of a dossier image, whether a user may read and change it now. */
#include <errno.h>
#include <inttypes.h>
#include <stdbool.h>
#include <stdio.h>
#include <stdlib.h>
#include <string.h>

#include "dossier_ask.h"

enum { EXIT_BAD_IMAGE = 1, EXIT_BAD_INPUT = 2, EXIT_NO_FILE = 3 };

static const char help_text[] =
    "usage: menus FILE ROLE USER TIME\n"
    "\n"
    "Prints every object of the dossier image FILE with the menu entries Read and Change,\n"
    "as USER in ROLE finds them at TIME:\n"
    "\n"
    "  plain     may be chosen\n"
    "  greyed    may not\n"
    "  otherwise may be chosen, and these messages are logged, these agreements must be signed\n"
    "\n"
    "ROLE is 1..15, USER 1..64, TIME in seconds, may be negative.\n"
    "\n"
    "exit: 0 printed, 1 FILE is no good image, 2 bad argument, 3 FILE cannot be read\n";

struct subject {
    uint8_t role, user;
    int64_t time;
};

struct image {
    size_t len;
    uint8_t bytes[DOSSIER_IMAGE_BYTES + 1]; /* one more: a longer file is a bad image, however long */
};

/* A decimal number from least to most; strtoimax is given no blanks and no plus sign. */
static bool get_number(const char *word, intmax_t least, intmax_t most, intmax_t *n)
{
    char *end;
    if (word[0] != '-' && (word[0] < '0' || word[0] > '9'))
        return false;
    errno = 0;
    *n = strtoimax(word, &end, 10);
    return end != word && *end == 0 && errno == 0 && least <= *n && *n <= most;
}

static bool get_subject(char **argv, struct subject *who)
{
    intmax_t role, user, time;
    if (!get_number(argv[2], 1, DOSSIER_MAX_ROLE, &role))
        fprintf(stderr, "menus: ROLE must be a number 1..%d, not \"%s\"\n", DOSSIER_MAX_ROLE, argv[2]);
    else if (!get_number(argv[3], 1, DOSSIER_MAX_USER, &user))
        fprintf(stderr, "menus: USER must be a number 1..%d, not \"%s\"\n", DOSSIER_MAX_USER, argv[3]);
    else if (!get_number(argv[4], INT64_MIN, INT64_MAX, &time))
        fprintf(stderr, "menus: TIME must be a number of seconds in 64 bits, not \"%s\"\n", argv[4]);
    else {
        *who = (struct subject){(uint8_t)role, (uint8_t)user, (int64_t)time};
        return true;
    }
    return false;
}

static bool get_image(const char *name, struct image *image)
{
    int fault = 0;
    FILE *file = fopen(name, "rb");
    if (file != NULL) {
        image->len = fread(image->bytes, 1, sizeof image->bytes, file);
        fault = ferror(file) ? errno : 0;
        fclose(file);
    } else {
        fault = errno;
    }
    if (fault != 0)
        fprintf(stderr, "menus: %s cannot be read: %s\n", name, strerror(fault));
    return fault == 0;
}

static uint32_t ask(const struct image *image, const struct subject *who, const uint8_t *record, uint8_t action,
                    uint8_t *provisions)
{
    const uint8_t *s = record + 2;
    uint16_t name = (uint16_t)(record[8] << 8 | record[9]);
    return dossier_ask(image->bytes, image->len, who->role, who->user, who->time, record[1], s[0], s[1], s[2], s[3],
                       s[4], s[5], name, action, provisions, DOSSIER_ASK_BYTES);
}

/* The numbers of a set of four bytes, as "messages 0,3"; appends to text. */
static void name_set(char *text, size_t room, const char *word, const uint8_t *set)
{
    uint32_t bits = (uint32_t)set[0] << 24 | (uint32_t)set[1] << 16 | (uint32_t)set[2] << 8 | set[3];
    const char *before = text[0] == 0 ? "" : "; ";
    for (unsigned n = 0; n < 32; n++)
        if (bits >> n & 1) {
            size_t used = strlen(text);
            snprintf(text + used, room - used, "%s%s%u", before, word, n);
            before = ",";
            word = "";
        }
}

static void name_entry(char *text, size_t room, uint32_t answer, const uint8_t *provisions)
{
    text[0] = 0;
    if (answer == DOSSIER_GRANTED) {
        name_set(text, room, "messages ", provisions);
        name_set(text, room, "agreements ", provisions + 4);
    }
    if (text[0] == 0)
        snprintf(text, room, "%s", answer == DOSSIER_GRANTED ? "plain" : "greyed");
}

static void name_object(char *text, size_t room, const uint8_t *record)
{
    unsigned name = (unsigned)(record[8] << 8 | record[9]);
    size_t used = 0;
    if (name != 0)
        used = (size_t)snprintf(text, room, "attribute %u of ", name);
    else
        used = (size_t)snprintf(text, room, "node ");
    if (record[1] == 0)
        snprintf(text + used, room - used, "/");
    for (unsigned n = 1; n <= record[1]; n++)
        used += (size_t)snprintf(text + used, room - used, n == 1 ? "%u" : ".%u", record[1 + n]);
}

static void print_menu(const struct image *image, const struct subject *who, const uint8_t *record)
{
    char object[64], read[256], change[256];
    uint8_t provisions[DOSSIER_ASK_BYTES];
    name_object(object, sizeof object, record);
    name_entry(read, sizeof read, ask(image, who, record, DOSSIER_READ, provisions), provisions);
    name_entry(change, sizeof change, ask(image, who, record, DOSSIER_CHANGE, provisions), provisions);
    printf("%-24s  Read: %-32s  Change: %s\n", object, read, change);
}

/* Each node, and below it its attributes: records of kind 2 with the same path. */
static void print_menus(const struct image *image, const struct subject *who)
{
    const uint8_t *end = image->bytes + image->len;
    for (const uint8_t *node = image->bytes; node < end; node += DOSSIER_RECORD_BYTES) {
        if (node[0] != 1)
            continue;
        print_menu(image, who, node);
        for (const uint8_t *r = image->bytes; r < end; r += DOSSIER_RECORD_BYTES)
            if (r[0] == 2 && memcmp(r + 1, node + 1, 7) == 0)
                print_menu(image, who, r);
    }
}

/* Whether the image is good is for dossier_ask to say; its first record is looked at only if it is. */
static bool is_good(const struct image *image, const struct subject *who)
{
    static const uint8_t root[DOSSIER_RECORD_BYTES];
    uint8_t provisions[DOSSIER_ASK_BYTES];
    return ask(image, who, root, DOSSIER_READ, provisions) != DOSSIER_BAD_IMAGE;
}

int main(int argc, char **argv)
{
    static struct image image;
    struct subject who;
    if (argc == 2 && strcmp(argv[1], "--help") == 0) {
        fputs(help_text, stdout);
        return 0;
    }
    if (argc != 5) {
        fputs("menus: four arguments are needed: FILE ROLE USER TIME (menus --help says more)\n", stderr);
        return EXIT_BAD_INPUT;
    }
    if (!get_subject(argv, &who))
        return EXIT_BAD_INPUT;
    if (!get_image(argv[1], &image))
        return EXIT_NO_FILE;
    if (!is_good(&image, &who)) {
        fprintf(stderr, "menus: %s is no good dossier image\n", argv[1]);
        return EXIT_BAD_IMAGE;
    }
    print_menus(&image, &who);
    return fflush(stdout) == 0 ? 0 : EXIT_NO_FILE;
}
