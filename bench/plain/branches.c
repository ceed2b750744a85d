/* Requests 1, 3 to 7 and 17: nodes and branches. */
#include "call.h"
#include "image.h"

static void delete_branch(struct dossier *d, key q)
{
    nodes_delete_branch(&d->nodes, q);
    attributes_delete_branch(&d->attributes, q);
    permissions_delete_branch(&d->permissions, q);
}

static void copy_branch(struct clipboard *to, const struct dossier *d, key q)
{
    to->kind = CLIPBOARD_BRANCH;
    nodes_copy_branch(&to->held.nodes, &d->nodes, q);
    attributes_copy_branch(&to->held.attributes, &d->attributes, q);
    permissions_copy_branch(&to->held.permissions, &d->permissions, q);
}

enum refusal plain_read_node(struct session *s, const struct request *r, struct answer *a)
{
    struct call c;
    if (!begin(s, r, &c))
        return BAD_OPERAND;
    if (!has_node(&c))
        return ABSENT;
    if (!may_read(c.dossier, &c.who, c.node, &c.due))
        return NOT_GRANTED;
    enum refusal refused = meet(s, &c);
    if (refused != GRANTED)
        return refused;
    size_t first, count = attributes_on(c.dossier, c.node, &first);
    a->children = (uint8_t)child_count(c.dossier, c.node);
    a->name_count = (uint8_t)count;
    for (size_t i = 0; i < count; i++)
        a->names[i] = name_of(c.dossier->attributes.at[first + i]);
    return GRANTED;
}

enum refusal plain_add_node(struct session *s, const struct request *r)
{
    struct call c;
    if (!begin(s, r, &c))
        return BAD_OPERAND;
    if (r->path.len == 0)
        return EMPTY_PATH;
    if (!has_place(&c))
        return ABSENT;
    if (!may_change_parent(&c))
        return NOT_GRANTED;
    struct dossier *d = c.dossier;
    if (d->nodes.count == MAX_NODES)
        return NODES_FULL;
    if (child_count(d, parent_of(c.node)) == MAX_STEP)
        return CHILDREN_FULL;
    enum refusal refused = meet(s, &c);
    if (refused != GRANTED)
        return refused;
    nodes_shift_up(&d->nodes, c.node);
    attributes_shift_up(&d->attributes, c.node);
    permissions_shift_up(&d->permissions, c.node);
    size_t i = first_at(d->nodes.at, d->nodes.count, c.node);
    nodes_open(&d->nodes, i, 1);
    nodes_put(&d->nodes, i, c.node, r->user);
    return GRANTED;
}

enum refusal plain_delete_branch(struct session *s, const struct request *r)
{
    struct call c;
    if (!begin(s, r, &c))
        return BAD_OPERAND;
    if (r->path.len == 0)
        return EMPTY_PATH;
    if (!has_node(&c))
        return ABSENT;
    if (!may_change_parent(&c))
        return NOT_GRANTED;
    enum refusal refused = meet(s, &c);
    if (refused == GRANTED)
        delete_branch(c.dossier, c.node);
    return refused;
}

enum refusal plain_copy_branch(struct session *s, const struct request *r)
{
    struct call c;
    if (!begin(s, r, &c))
        return BAD_OPERAND;
    if (!has_node(&c))
        return ABSENT;
    if (!may_read(c.dossier, &c.who, c.node, &c.due))
        return NOT_GRANTED;
    enum refusal refused = meet(s, &c);
    if (refused == GRANTED)
        copy_branch(&s->clipboard, c.dossier, c.node);
    return refused;
}

enum refusal plain_cut_branch(struct session *s, const struct request *r)
{
    struct call c;
    if (!begin(s, r, &c))
        return BAD_OPERAND;
    if (r->path.len == 0)
        return EMPTY_PATH;
    if (!has_node(&c))
        return ABSENT;
    if (!may_read(c.dossier, &c.who, c.node, &c.due) || !may_change_parent(&c))
        return NOT_GRANTED;
    enum refusal refused = meet(s, &c);
    if (refused != GRANTED)
        return refused;
    copy_branch(&s->clipboard, c.dossier, c.node);
    delete_branch(c.dossier, c.node);
    return GRANTED;
}

/* The first shelf that would be full. Nodes stand level by level, so the last is as deep as any. */
static enum refusal shelf_for_branch(const struct dossier *d, const struct dossier *branch, key q)
{
    unsigned height = key_len(branch->nodes.at[branch->nodes.count - 1]);
    if (d->nodes.count + branch->nodes.count > MAX_NODES)
        return NODES_FULL;
    if (key_len(q) + height > MAX_DEPTH)
        return TOO_DEEP;
    if (child_count(d, parent_of(q)) == MAX_STEP)
        return CHILDREN_FULL;
    if (d->attributes.count + branch->attributes.count > MAX_ATTRIBUTES)
        return ATTRIBUTES_FULL;
    if (d->permissions.count + branch->permissions.count > MAX_PERMISSIONS)
        return PERMISSIONS_FULL;
    return GRANTED;
}

/* At a place that is there: refusal 6, then the shelves, then 10 and 11. */
static enum refusal place_branch(struct session *s, struct call *c, const struct dossier *branch)
{
    if (!may_change_parent(c))
        return NOT_GRANTED;
    enum refusal refused = shelf_for_branch(c->dossier, branch, c->node);
    if (refused == GRANTED)
        refused = meet(s, c);
    if (refused != GRANTED)
        return refused;
    nodes_paste_branch(&c->dossier->nodes, &branch->nodes, c->node);
    attributes_paste_branch(&c->dossier->attributes, &branch->attributes, c->node);
    permissions_paste_branch(&c->dossier->permissions, &branch->permissions, c->node);
    return GRANTED;
}

enum refusal plain_paste_branch(struct session *s, const struct request *r)
{
    struct call c;
    if (!begin(s, r, &c))
        return BAD_OPERAND;
    if (r->path.len == 0)
        return EMPTY_PATH;
    if (!has_place(&c))
        return ABSENT;
    if (s->clipboard.kind != CLIPBOARD_BRANCH)
        return WRONG_CLIPBOARD;
    return place_branch(s, &c, &s->clipboard.held);
}

enum refusal plain_add_image(struct session *s, const struct request *r, struct answer *a)
{
    struct call c;
    struct dossier branch;
    if (!begin(s, r, &c))
        return BAD_OPERAND;
    if (!read_branch(&branch, r->image, r->image_len, r->user, &a->record))
        return BAD_IMAGE;
    if (r->path.len == 0)
        return EMPTY_PATH;
    if (!has_place(&c))
        return ABSENT;
    return place_branch(s, &c, &branch);
}
