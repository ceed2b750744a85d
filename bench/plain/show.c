#include <inttypes.h>

#include "line.h"
#include "tables.h"

static void indent(FILE *to, key node, unsigned more)
{
    fprintf(to, "%*s", (int)(2 * key_len(node) + more), "");
}

static void show_set(FILE *to, const char *word, uint32_t set)
{
    const char *before = word;
    for (unsigned n = 0; n < PROVISIONS; n++)
        if (set >> n & 1) {
            fprintf(to, "%s%u", before, n);
            before = ",";
        }
}

static void show_permission(FILE *to, key at, const struct terms *p)
{
    static const char *const actions[] = {"", "read", "change", "print", "delegate"};
    fprintf(to, "role %u may %s, ", role_of(at), actions[action_of(at)]);
    if (p->user == 0)
        fputs("any user", to);
    else
        fprintf(to, "user %u", p->user);
    fprintf(to, ", %" PRId64 "..%" PRId64, p->first, p->last);
    show_set(to, ", messages ", p->messages);
    show_set(to, ", agreements ", p->agreements);
    putc('\n', to);
}

static void show_permissions(FILE *to, const struct dossier *d, key object, unsigned more)
{
    size_t first, count = permissions_on(d, object, &first);
    for (size_t i = first; i < first + count; i++) {
        indent(to, object, more);
        show_permission(to, d->permissions.at[i], &d->permissions.row[i]);
    }
}

static void show_attributes(FILE *to, const struct dossier *d, key node)
{
    size_t first, count = attributes_on(d, node, &first);
    for (size_t i = first; i < first + count; i++) {
        const struct attribute *a = &d->attributes.row[i];
        indent(to, node, 4);
        if (a->value.kind == WHOLE)
            fprintf(to, "%u = %" PRIu32, name_of(d->attributes.at[i]), a->value.whole);
        else
            fprintf(to, "%u = %.9g (reading)", name_of(d->attributes.at[i]), (double)a->value.reading);
        fprintf(to, ", owner %u\n", a->owner);
        show_permissions(to, d, d->attributes.at[i], 8);
    }
}

static void show_address(FILE *to, key node)
{
    if (key_len(node) == 0)
        putc('/', to);
    for (unsigned n = 1; n <= key_len(node); n++)
        fprintf(to, n == 1 ? "%u" : ".%u", step_of(node, n));
}

/* At most seven levels deep. */
static void show_branch(FILE *to, const struct dossier *d, key node)
{
    indent(to, node, 0);
    show_address(to, node);
    fprintf(to, ", owner %u\n", owner_of(d, node));
    show_permissions(to, d, node, 8);
    show_attributes(to, d, node);
    unsigned children = child_count(d, node);
    for (unsigned n = 1; n <= children; n++)
        show_branch(to, d, child_of(node, n));
}

void show_dossier(FILE *to, const struct dossier *d)
{
    show_branch(to, d, 0);
}
