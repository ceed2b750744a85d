/* What every guarded request does first and last: its operands, its place, its needs, its provisions. */
#ifndef PLAIN_CALL_H
#define PLAIN_CALL_H

#include "decide.h"
#include "tables.h"

/* What every request works out first. */
struct call {
    struct dossier *dossier;
    struct subject who;
    struct provisions due;
    key node, object; /* the path, and the path with the name */
};

static inline bool begin(struct session *s, const struct request *r, struct call *c)
{
    if (r->dossier < 1 || r->dossier > 2 || !is_subject(r->role, r->user))
        return false;
    if (!pack_path(r->path.len, r->path.step, &c->node))
        return false;
    c->dossier = &s->dossier[r->dossier - 1];
    c->who = (struct subject){r->role, r->user, r->time};
    c->due = (struct provisions){0, 0};
    c->object = with_name(c->node, r->name);
    return true;
}

static inline bool begin_named(struct session *s, const struct request *r, struct call *c)
{
    return r->name != 0 && begin(s, r, c);
}

static inline bool has_node(const struct call *c)
{
    size_t i;
    return find_node(c->dossier, c->node, &i);
}

static inline bool has_object(const struct call *c)
{
    return owner_of(c->dossier, c->object) != 0;
}

/* A place to add or paste at: the parent is there and the place is at most one beyond its children. */
static inline bool has_place(const struct call *c)
{
    size_t i;
    key parent = parent_of(c->node);
    return find_node(c->dossier, parent, &i) && last_step(c->node) <= child_count(c->dossier, parent) + 1;
}

static inline bool may_change_parent(struct call *c)
{
    return may_change(c->dossier, &c->who, parent_of(c->node), &c->due);
}

static inline bool may_read_object(struct call *c)
{
    return may_read(c->dossier, &c->who, c->object, &c->due);
}

static inline bool may_change_node(struct call *c)
{
    return may_change(c->dossier, &c->who, c->node, &c->due);
}

/* Refuses 10 or 11, or logs the messages, each once and ascending. */
enum refusal meet(struct session *s, const struct call *c);

#endif
