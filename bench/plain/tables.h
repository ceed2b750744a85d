/* Nodes, attributes and permissions in arrays, sorted in image order: finding, counting, moving. */
#ifndef PLAIN_TABLES_H
#define PLAIN_TABLES_H

#include <string.h>

#include "keys.h"

#define TABLE nodes
#define ROW uint8_t
#include "rows.h"

#define TABLE attributes
#define ROW struct attribute
#include "rows.h"

#define TABLE permissions
#define ROW struct terms
#include "rows.h"

/* The first place whose key is not below k: by a scan with -DSCAN, otherwise by halving. */
#ifdef SCAN
static inline size_t first_at(const key *at, size_t count, key k)
{
    size_t i = 0;
    while (i < count && at[i] < k)
        i++;
    return i;
}
#else
static inline size_t first_at(const key *at, size_t count, key k)
{
    size_t low = 0;
    while (count > 0) {
        size_t half = count / 2;
        if (at[low + half] < k) {
            low += half + 1;
            count -= half + 1;
        } else {
            count = half;
        }
    }
    return low;
}
#endif

static inline bool find(const key *at, size_t count, key k, size_t *place)
{
    *place = first_at(at, count, k);
    return *place < count && at[*place] == k;
}

static inline bool find_node(const struct dossier *d, key node, size_t *place)
{
    return find(d->nodes.at, d->nodes.count, node, place);
}

static inline bool find_attribute(const struct dossier *d, key object, size_t *place)
{
    return find(d->attributes.at, d->attributes.count, object, place);
}

/* The owner of an object, node or attribute; 0 if it is absent. */
static inline uint8_t owner_of(const struct dossier *d, key object)
{
    size_t i;
    if (name_of(object) == 0)
        return find_node(d, object, &i) ? d->nodes.row[i] : 0;
    return find_attribute(d, object, &i) ? d->attributes.row[i].owner : 0;
}

static inline unsigned child_count(const struct dossier *d, key node)
{
    if (key_len(node) == MAX_DEPTH)
        return 0;
    const struct nodes *t = &d->nodes;
    size_t first = first_at(t->at, t->count, child_of(node, 1));
    size_t end = first_at(t->at, t->count, child_of(node, MAX_STEP + 1));
    return (unsigned)(end - first);
}

/* The attributes of a node: count places from *first on. */
static inline size_t attributes_on(const struct dossier *d, key node, size_t *first)
{
    const struct attributes *t = &d->attributes;
    *first = first_at(t->at, t->count, node);
    return first_at(t->at, t->count, after_node(node)) - *first;
}

/* The permissions on one object: count places from *first on. */
static inline size_t permissions_on(const struct dossier *d, key object, size_t *first)
{
    const struct permissions *t = &d->permissions;
    *first = first_at(t->at, t->count, object);
    return first_at(t->at, t->count, object + ((key)1 << NAME_SHIFT)) - *first;
}

static inline void bare_root(struct dossier *d, uint8_t owner)
{
    d->nodes.count = 0;
    d->attributes.count = 0;
    d->permissions.count = 0;
    nodes_put(&d->nodes, d->nodes.count++, 0, owner);
}

#endif
