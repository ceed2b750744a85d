/* Requests 2 and 8 to 13: attributes. */
#include "call.h"

static void delete_attribute(struct dossier *d, key object)
{
    size_t at, first, count = permissions_on(d, object, &first);
    permissions_close(&d->permissions, first, count);
    find_attribute(d, object, &at);
    attributes_close(&d->attributes, at, 1);
}

static void copy_attribute(struct clipboard *to, const struct dossier *d, key object)
{
    size_t at, first, count = permissions_on(d, object, &first);
    unsigned len = key_len(object);
    find_attribute(d, object, &at);
    to->kind = CLIPBOARD_ATTRIBUTE;
    to->held.nodes.count = 0;
    to->held.attributes.count = 1;
    attributes_put(&to->held.attributes, 0, prefix_off(d->attributes.at[at], len), d->attributes.row[at]);
    to->held.permissions.count = count;
    for (size_t i = 0; i < count; i++)
        permissions_put(&to->held.permissions, i, prefix_off(d->permissions.at[first + i], len),
                        d->permissions.row[first + i]);
}

static void insert_attribute(struct dossier *d, key object, struct attribute row)
{
    size_t at = first_at(d->attributes.at, d->attributes.count, object);
    attributes_open(&d->attributes, at, 1);
    attributes_put(&d->attributes, at, object, row);
}

/* Nothing in the dossier speaks of the new object yet, so its permissions go in as one block. */
static void paste_attribute(struct dossier *d, const struct dossier *held, key object)
{
    const struct permissions *from = &held->permissions;
    size_t first = first_at(d->permissions.at, d->permissions.count, object);
    insert_attribute(d, object, held->attributes.row[0]);
    permissions_open(&d->permissions, first, from->count);
    for (size_t i = 0; i < from->count; i++)
        permissions_put(&d->permissions, first + i, with_right(object, role_of(from->at[i]), action_of(from->at[i])),
                        from->row[i]);
}

enum refusal plain_read_attribute(struct session *s, const struct request *r, struct answer *a)
{
    struct call c;
    size_t i;
    if (!begin_named(s, r, &c))
        return BAD_OPERAND;
    if (!find_attribute(c.dossier, c.object, &i))
        return ABSENT;
    if (!may_read_object(&c))
        return NOT_GRANTED;
    enum refusal refused = meet(s, &c);
    if (refused == GRANTED)
        a->value = c.dossier->attributes.row[i].value;
    return refused;
}

static bool has_room_for_attribute(const struct dossier *d, key node)
{
    size_t first;
    return d->attributes.count < MAX_ATTRIBUTES && attributes_on(d, node, &first) < MAX_ATTRIBUTES_ON_NODE;
}

enum refusal plain_add_attribute(struct session *s, const struct request *r)
{
    struct call c;
    if (!begin_named(s, r, &c) || !is_value(&r->value))
        return BAD_OPERAND;
    if (!has_node(&c))
        return ABSENT;
    if (has_object(&c))
        return NAME_TAKEN;
    if (!may_change_node(&c))
        return NOT_GRANTED;
    if (!has_room_for_attribute(c.dossier, c.node))
        return ATTRIBUTES_FULL;
    enum refusal refused = meet(s, &c);
    if (refused == GRANTED)
        insert_attribute(c.dossier, c.object, (struct attribute){r->user, r->value});
    return refused;
}

enum refusal plain_delete_attribute(struct session *s, const struct request *r)
{
    struct call c;
    if (!begin_named(s, r, &c))
        return BAD_OPERAND;
    if (!has_object(&c))
        return ABSENT;
    if (!may_change_node(&c))
        return NOT_GRANTED;
    enum refusal refused = meet(s, &c);
    if (refused == GRANTED)
        delete_attribute(c.dossier, c.object);
    return refused;
}

enum refusal plain_change_value(struct session *s, const struct request *r)
{
    struct call c;
    size_t i;
    if (!begin_named(s, r, &c) || !is_value(&r->value))
        return BAD_OPERAND;
    if (!find_attribute(c.dossier, c.object, &i))
        return ABSENT;
    if (!may_read_object(&c) || !may_change_node(&c))
        return NOT_GRANTED;
    enum refusal refused = meet(s, &c);
    if (refused == GRANTED)
        c.dossier->attributes.row[i].value = r->value;
    return refused;
}

enum refusal plain_copy_attribute(struct session *s, const struct request *r)
{
    struct call c;
    if (!begin_named(s, r, &c))
        return BAD_OPERAND;
    if (!has_object(&c))
        return ABSENT;
    if (!may_read_object(&c))
        return NOT_GRANTED;
    enum refusal refused = meet(s, &c);
    if (refused == GRANTED)
        copy_attribute(&s->clipboard, c.dossier, c.object);
    return refused;
}

enum refusal plain_cut_attribute(struct session *s, const struct request *r)
{
    struct call c;
    if (!begin_named(s, r, &c))
        return BAD_OPERAND;
    if (!has_object(&c))
        return ABSENT;
    if (!may_read_object(&c) || !may_change_node(&c))
        return NOT_GRANTED;
    enum refusal refused = meet(s, &c);
    if (refused != GRANTED)
        return refused;
    copy_attribute(&s->clipboard, c.dossier, c.object);
    delete_attribute(c.dossier, c.object);
    return GRANTED;
}

enum refusal plain_paste_attribute(struct session *s, const struct request *r)
{
    struct call c;
    const struct dossier *held = &s->clipboard.held;
    if (!begin_named(s, r, &c))
        return BAD_OPERAND;
    if (!has_node(&c))
        return ABSENT;
    if (has_object(&c))
        return NAME_TAKEN;
    if (s->clipboard.kind != CLIPBOARD_ATTRIBUTE)
        return WRONG_CLIPBOARD;
    if (!may_change_node(&c))
        return NOT_GRANTED;
    if (!has_room_for_attribute(c.dossier, c.node))
        return ATTRIBUTES_FULL;
    if (c.dossier->permissions.count + held->permissions.count > MAX_PERMISSIONS)
        return PERMISSIONS_FULL;
    enum refusal refused = meet(s, &c);
    if (refused == GRANTED)
        paste_attribute(c.dossier, held, c.object);
    return refused;
}
