/* Writes the works that are timed, as scripts in the language of PROTOCOL.md:
 *   works FOLDER
 * A script has a part after "# setup", made once, and a part after "# cycle", made again and again: a cycle leaves the
 * dossiers as it found them. The images stand in the folder as files too. */
#include <stdarg.h>
#include <stdio.h>
#include <stdlib.h>
#include <string.h>

#include "records.h"

enum { MOST_NODES = 64, PATH_ROOM = 24, WORKER = 9 };

/* A dossier by its numbers. The last node is an empty leaf of the worker's; chosen is its parent. */
struct plan {
    const char *name;
    unsigned nodes, attributes, permissions;
    char path[MOST_NODES][PATH_ROOM];
    unsigned chosen;
    struct image image;
};

static const char *folder;

static FILE *create(const char *name, const char *end)
{
    char file[4096];
    snprintf(file, sizeof file, "%s/%s%s", folder, name, end);
    FILE *to = fopen(file, "wb");
    if (to == NULL) {
        perror(file);
        exit(1);
    }
    return to;
}

static void finish(FILE *to)
{
    if (fclose(to) != 0) {
        perror("works");
        exit(1);
    }
}

static void below(char *path, const char *parent, unsigned step)
{
    if (parent[0] == '/')
        snprintf(path, PATH_ROOM, "%u", step);
    else
        snprintf(path, PATH_ROOM, "%.18s.%u", parent, step % 100);
}

/* Nodes from place `from` on, level by level with `width` children each, below the node at that place. */
static void grow(struct plan *p, unsigned from, unsigned count, unsigned width)
{
    for (unsigned i = 1; i < count; i++)
        below(p->path[from + i], p->path[from + (i - 1) / width], (i - 1) % width + 1);
}

static int compare_paths(const void *a, const void *b)
{
    struct place p = place_of(a), q = place_of(b);
    return p.len != q.len ? p.len - q.len : memcmp(p.step, q.step, sizeof p.step);
}

static unsigned find_parent(const struct plan *p, unsigned child)
{
    char parent[PATH_ROOM];
    strcpy(parent, p->path[child]);
    char *dot = strrchr(parent, '.');
    if (dot == NULL)
        return 0;
    *dot = 0;
    for (unsigned i = 0; i < p->nodes; i++)
        if (strcmp(p->path[i], parent) == 0)
            return i;
    return 0;
}

static unsigned attributes_of(const struct plan *p, unsigned node)
{
    unsigned bearing = p->nodes - 1;
    return node == bearing ? 0 : p->attributes / bearing + (node < p->attributes % bearing);
}

static uint16_t name_of(unsigned node, unsigned n)
{
    return (uint16_t)(1 + 17 * node + 2000 * n);
}

static void put_attributes(struct plan *p, unsigned node)
{
    unsigned count = attributes_of(p, node);
    for (unsigned n = 0; n < count; n++) {
        uint8_t owner = node == p->chosen && n == count - 1 ? WORKER : (uint8_t)(1 + node % 2);
        if (n % 2 == 0)
            put_whole(&p->image, p->path[node], name_of(node, n), owner, 100 * node + n);
        else
            put_reading(&p->image, p->path[node], name_of(node, n), owner, UINT32_C(0x3f800000) + node);
    }
}

enum { LATE = 1000000, SOON = 1000 };

/* Role 2 reads and changes the first nodes, reads and delegates the first attribute of nearly as many. */
static void put_permissions(struct plan *p, unsigned node)
{
    const char *path = p->path[node];
    uint16_t first = name_of(node, 0);
    if (node < p->permissions / 4) {
        put_permission(&p->image, path, 0, PERMISSION(2, 1, 0, 0, LATE, 0, 1 << 1));
        put_permission(&p->image, path, 0, PERMISSION(2, 2, 0, 0, LATE, 0, 1 << 2));
    }
    if (node == 0)
        put_permission(&p->image, path, 0, PERMISSION(4, 3, 0, 0, LATE, 0, 0));
    if (node < p->permissions / 4 - 1) {
        put_permission(&p->image, path, first, PERMISSION(2, 1, 0, 0, LATE, 0, 1 << 3));
        put_permission(&p->image, path, first, PERMISSION(2, 4, 0, 0, LATE, 0, 1 << 4));
    }
    if (node == p->chosen)
        put_permission(&p->image, path, first, PERMISSION(3, 1, 0, 0, SOON, 0, 1 << 3));
}

/* Makes the image of a plan whose paths are there, in any order. */
static void fill(struct plan *p)
{
    qsort(p->path, p->nodes, PATH_ROOM, compare_paths);
    p->chosen = find_parent(p, p->nodes - 1);
    p->image.len = 0;
    for (unsigned i = 0; i < p->nodes; i++)
        put_node(&p->image, p->path[i], i == p->nodes - 1 ? WORKER : (uint8_t)(1 + i % 2));
    for (unsigned i = 0; i < p->nodes; i++)
        put_attributes(p, i);
    for (unsigned i = 0; i < p->nodes; i++)
        put_permissions(p, i);
    FILE *to = create(p->name, ".image");
    fwrite(p->image.bytes, 1, p->image.len, to);
    finish(to);
}

static struct plan *plan(const char *name, unsigned nodes, unsigned attributes, unsigned permissions, unsigned width)
{
    struct plan *p = calloc(1, sizeof *p);
    if (p == NULL)
        exit(1);
    *p = (struct plan){.name = name, .nodes = nodes, .attributes = attributes, .permissions = permissions};
    strcpy(p->path[0], "/");
    grow(p, 0, nodes, width);
    return p;
}

static void print_image(FILE *to, const struct image *image)
{
    for (size_t i = 0; i < image->len; i++)
        fprintf(to, "%02x", image->bytes[i]);
}

static FILE *begin_work(const char *name, const struct plan *first, const struct plan *second)
{
    FILE *to = create(name, ".calls");
    const struct plan *plans[2] = {first, second};
    fputs("# setup\nstart\n", to);
    for (unsigned n = 0; n < 2; n++)
        if (plans[n] != NULL) {
            fprintf(to, "load %u ", n + 1);
            print_image(to, &plans[n]->image);
            putc('\n', to);
        }
    for (unsigned n = 1; n <= 4; n++)
        fprintf(to, "sign %d %u\n", WORKER, n);
    fputs("# cycle\n", to);
    return to;
}

/* A work on one dossier whose cycle is given as text. */
static void work(const struct plan *p, const char *name, const char *format, ...)
{
    char full_name[128];
    va_list arguments;
    snprintf(full_name, sizeof full_name, "%s-%s", p->name, name);
    FILE *to = begin_work(full_name, p, NULL);
    va_start(arguments, format);
    vfprintf(to, format, arguments);
    va_end(arguments);
    finish(to);
}

static void ask_work(const struct plan *p, const char *name, const char *rest, const char *path, unsigned object,
                     unsigned action)
{
    char full_name[128];
    snprintf(full_name, sizeof full_name, "%s-ask-%s", p->name, name);
    FILE *to = create(full_name, ".calls");
    fputs("# setup\nstart\n# cycle\nask ", to);
    print_image(to, &p->image);
    fprintf(to, " %s %s %u %u\n", rest, path, object, action);
    finish(to);
}

static void ask_works(const struct plan *p)
{
    char owner[32];
    const char *path = p->path[p->chosen];
    unsigned first = name_of(p->chosen, 0);
    snprintf(owner, sizeof owner, "1 %u 500", 1 + p->chosen % 2);
    ask_work(p, "owner", owner, path, 0, 1);
    ask_work(p, "permission", "2 9 500", path, 0, 1);
    ask_work(p, "three-permissions", "2 9 500", path, first, 2);
    ask_work(p, "refused", "5 9 500", path, 0, 1);
}

/* Requests 1 to 16; a request that takes away stands before the one that puts back, so that a full table has room. */
static void request_works(const struct plan *p)
{
    const char *path = p->path[p->chosen], *leaf = p->path[p->nodes - 1];
    unsigned first = name_of(p->chosen, 0), n = attributes_of(p, p->chosen) - 1, last = name_of(p->chosen, n);
    unsigned owner = 1 + p->chosen % 2;
    char value[32];
    snprintf(value, sizeof value, n % 2 == 0 ? "whole:%u" : "reading:%08x", n % 2 == 0 ? 100 * p->chosen + n
                                                                                       : 0x3f800000u + p->chosen);
    work(p, "01-read-node", "read-node 1 2 9 500 %s\n", path);
    work(p, "02-read-attribute", "read-attribute 1 2 9 500 %s %u\n", path, first);
    work(p, "03-04-add-delete-node", "delete-branch 1 2 9 500 %s\nadd-node 1 2 9 500 %s\n", leaf, leaf);
    work(p, "05-copy-branch", "copy-branch 1 2 9 500 1\n");
    work(p, "06-07-cut-paste-branch", "cut-branch 1 2 9 500 1\npaste-branch 1 2 9 500 1\n");
    work(p, "08-09-add-delete-attribute",
         "delete-attribute 1 2 9 500 %s %u\nadd-attribute 1 2 9 500 %s %u %s\n", path, last, path, last, value);
    work(p, "10-change-value", "change-value 1 2 9 500 %s %u whole:%u\n", path, first, 100 * p->chosen);
    work(p, "11-copy-attribute", "copy-attribute 1 2 9 500 %s %u\n", path, first);
    work(p, "12-13-cut-paste-attribute", "cut-attribute 1 2 9 500 %s %u\npaste-attribute 1 2 9 500 %s %u\n", path,
         first, path, first);
    work(p, "14-15-add-delete-permission",
         "delete-permission 1 1 %u 500 %s 0 2 1 0 0 %d 0 2\nadd-permission 1 1 %u 500 %s 0 2 1 0 0 %d 0 2\n", owner,
         path, LATE, owner, path, LATE);
    work(p, "16-15-delegate-delete",
         "delete-permission 1 1 %u 500 %s %u 3 1 0 0 %d 0 8\ndelegate 1 2 9 500 %s %u 3 1 0 0 %d 0 8\n", owner, path,
         first, SOON, path, first, SOON);
    work(p, "save", "save 1\n");
    char load[128];
    snprintf(load, sizeof load, "%s-load", p->name);
    FILE *to = begin_work(load, NULL, NULL);
    fputs("load 1 ", to);
    print_image(to, &p->image);
    putc('\n', to);
    finish(to);
}

/* A branch of 30 nodes at 1, and nine siblings, the last of them empty. */
static struct plan *branch_plan(void)
{
    struct plan *p = plan("branch", 40, 150, 80, 39);
    strcpy(p->path[1], "1");
    grow(p, 1, 30, 5);
    for (unsigned i = 31; i < 40; i++)
        below(p->path[i], "/", i - 29);
    return p;
}

static void branch_work(void)
{
    struct plan *from = branch_plan(), *to = plan("host", 30, 100, 48, 4);
    fill(from);
    fill(to);
    FILE *file = begin_work("branch-of-30-there-and-back", from, to);
    fputs("cut-branch 1 2 9 500 1\npaste-branch 2 2 9 500 1\ncut-branch 2 2 9 500 1\npaste-branch 1 2 9 500 1\n", file);
    finish(file);
    free(from);
    free(to);
}

static void plan_works(struct plan *p)
{
    fill(p);
    ask_works(p);
    request_works(p);
    free(p);
}

int main(int argc, char **argv)
{
    if (argc != 2) {
        fputs("usage: works FOLDER\n", stderr);
        return 2;
    }
    folder = argv[1];
    plan_works(plan("typical", 40, 150, 80, 4));
    plan_works(plan("full", 64, 256, 128, 4));
    struct plan *wide = plan("wide", 63, 256, 128, 31);
    fill(wide);
    work(wide, "front-of-32-children", "add-node 1 2 9 500 1\ndelete-branch 1 2 9 500 1\n");
    free(wide);
    branch_work();
    return 0;
}
