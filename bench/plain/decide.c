#include "decide.h"

#include "tables.h"

static bool admits(const struct terms *p, uint8_t user)
{
    return p->user == 0 || p->user == user;
}

/* At most one permission matches, since no dossier holds a clash. */
bool grants(const struct dossier *d, const struct subject *who, key object, uint8_t action, struct provisions *due)
{
    const struct permissions *t = &d->permissions;
    key at = with_right(object, who->role, action);
    for (size_t i = first_at(t->at, t->count, at); i < t->count && t->at[i] == at; i++) {
        const struct terms *p = &t->row[i];
        if (p->first <= who->time && who->time <= p->last && admits(p, who->user)) {
            due->messages |= p->messages;
            due->agreements |= p->agreements;
            return true;
        }
    }
    return false;
}

bool may_read(const struct dossier *d, const struct subject *who, key object, struct provisions *due)
{
    return owner_of(d, object) == who->user || grants(d, who, object, READ, due);
}

bool may_change(const struct dossier *d, const struct subject *who, key node, struct provisions *due)
{
    return owner_of(d, node) == who->user ||
           (grants(d, who, node, READ, due) && grants(d, who, node, CHANGE, due));
}

bool clashes(const struct permissions *t, key at, const struct terms *new)
{
    for (size_t i = first_at(t->at, t->count, at); i < t->count && t->at[i] == at; i++) {
        const struct terms *p = &t->row[i];
        bool share_time = p->first <= new->last && new->first <= p->last;
        bool share_user = new->user == 0 || admits(p, new->user);
        if (share_time && share_user)
            return true;
    }
    return false;
}

bool covers(const struct permissions *t, const struct subject *who, key object, uint8_t action,
            const struct terms *new)
{
    key at = with_right(object, who->role, action);
    for (size_t i = first_at(t->at, t->count, at); i < t->count && t->at[i] == at; i++) {
        const struct terms *p = &t->row[i];
        bool users = p->user == 0 || (p->user == who->user && p->user == new->user);
        bool times = p->first <= new->first && new->last <= p->last;
        bool provisions = (p->messages & ~new->messages) == 0 && (p->agreements & ~new->agreements) == 0;
        if (users && times && provisions)
            return true;
    }
    return false;
}

bool is_subject(uint8_t role, uint8_t user)
{
    return 1 <= role && role <= MAX_ROLE && 1 <= user && user <= MAX_USER;
}

bool is_permission(const struct permission *p, bool on_attribute)
{
    return 1 <= p->role && p->role <= MAX_ROLE && READ <= p->action && p->action <= DELEGATE &&
           p->user <= MAX_USER && p->first <= p->last && !(on_attribute && p->action == CHANGE);
}

/* A reading is finite unless its eight exponent bits are all ones; the test is made on the bits as they came. */
bool is_value(const struct value *v)
{
    const uint32_t exponent = UINT32_C(0x7f800000);
    return v->kind == WHOLE || (v->kind == READING && (v->whole & exponent) != exponent);
}

/* Order of two permissions with equal keys: the image has times as two's complement, so negative ones come last. */
static bool terms_before(const struct terms *p, const struct terms *q)
{
    if (p->user != q->user)
        return p->user < q->user;
    if (p->first != q->first)
        return (uint64_t)p->first < (uint64_t)q->first;
    if (p->last != q->last)
        return (uint64_t)p->last < (uint64_t)q->last;
    if (p->messages != q->messages)
        return p->messages < q->messages;
    return p->agreements < q->agreements;
}

bool find_permission(const struct permissions *t, key at, const struct terms *p, size_t *place)
{
    size_t i = first_at(t->at, t->count, at);
    while (i < t->count && t->at[i] == at && terms_before(&t->row[i], p))
        i++;
    *place = i;
    return i < t->count && t->at[i] == at && !terms_before(p, &t->row[i]);
}
