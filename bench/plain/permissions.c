/* Requests 14 to 16: permissions. */
#include "call.h"

static struct terms terms_of(const struct permission *p)
{
    return (struct terms){p->first, p->last, p->messages, p->agreements, p->user};
}

static void insert_permission(struct permissions *t, key at, struct terms row)
{
    size_t place;
    find_permission(t, at, &row, &place);
    permissions_open(t, place, 1);
    permissions_put(t, place, at, row);
}

enum refusal plain_add_permission(struct session *s, const struct request *r)
{
    struct call c;
    if (!begin(s, r, &c) || !is_permission(&r->permission, r->name != 0))
        return BAD_OPERAND;
    if (!has_object(&c))
        return ABSENT;
    if (owner_of(c.dossier, c.object) != r->user)
        return NOT_GRANTED;
    struct permissions *t = &c.dossier->permissions;
    struct terms new = terms_of(&r->permission);
    key at = with_right(c.object, r->permission.role, r->permission.action);
    if (clashes(t, at, &new))
        return CLASH;
    if (t->count == MAX_PERMISSIONS)
        return PERMISSIONS_FULL;
    insert_permission(t, at, new);
    return GRANTED;
}

enum refusal plain_delete_permission(struct session *s, const struct request *r)
{
    struct call c;
    size_t place;
    if (!begin(s, r, &c) || !is_permission(&r->permission, r->name != 0))
        return BAD_OPERAND;
    struct terms old = terms_of(&r->permission);
    key at = with_right(c.object, r->permission.role, r->permission.action);
    if (!has_object(&c) || !find_permission(&c.dossier->permissions, at, &old, &place))
        return ABSENT;
    if (owner_of(c.dossier, c.object) != r->user)
        return NOT_GRANTED;
    permissions_close(&c.dossier->permissions, place, 1);
    return GRANTED;
}

enum refusal plain_delegate(struct session *s, const struct request *r)
{
    struct call c;
    uint8_t action = r->permission.action;
    if (!begin(s, r, &c) || !is_permission(&r->permission, r->name != 0) || (action != READ && action != CHANGE))
        return BAD_OPERAND;
    if (!has_object(&c))
        return ABSENT;
    if (!grants(c.dossier, &c.who, c.object, DELEGATE, &c.due))
        return NOT_GRANTED;
    struct permissions *t = &c.dossier->permissions;
    struct terms new = terms_of(&r->permission);
    key at = with_right(c.object, r->permission.role, action);
    if (!covers(t, &c.who, c.object, action, &new))
        return NOT_COVERED;
    if (clashes(t, at, &new))
        return CLASH;
    if (t->count == MAX_PERMISSIONS)
        return PERMISSIONS_FULL;
    enum refusal refused = meet(s, &c);
    if (refused == GRANTED)
        insert_permission(t, at, new);
    return refused;
}
