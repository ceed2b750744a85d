#include "image.h"

#include "decide.h"
#include "tables.h"

enum { KIND_NODE = 1, KIND_ATTRIBUTE = 2, KIND_PERMISSION = 3 };

static uint32_t get32(const uint8_t *in)
{
    return (uint32_t)in[0] << 24 | (uint32_t)in[1] << 16 | (uint32_t)in[2] << 8 | in[3];
}

static int64_t get_time(const uint8_t *in)
{
    return (int64_t)((uint64_t)get32(in) << 32 | get32(in + 4));
}

void put32(uint8_t *out, uint32_t n)
{
    out[0] = (uint8_t)(n >> 24);
    out[1] = (uint8_t)(n >> 16);
    out[2] = (uint8_t)(n >> 8);
    out[3] = (uint8_t)n;
}

static void put_time(uint8_t *out, int64_t time)
{
    put32(out, (uint32_t)((uint64_t)time >> 32));
    put32(out + 4, (uint32_t)(uint64_t)time);
}

static bool all_zero(const uint8_t *record, size_t from, size_t end)
{
    static const uint8_t zeros[RECORD_BYTES];
    return memcmp(record + from, zeros, end - from) == 0;
}

/* The object of a record: path and name, unused steps 0. */
static bool get_object(const uint8_t *record, key *object)
{
    key node;
    if (!pack_path(record[1], record + 2, &node) || !all_zero(record, 2u + record[1], 8))
        return false;
    *object = with_name(node, (uint16_t)(record[8] << 8 | record[9]));
    return true;
}

static bool is_owner(uint8_t user)
{
    return 1 <= user && user <= MAX_USER;
}

/* Records ascend, so a left sibling stands just before, and where one stands the parent does too. */
static bool has_its_place(const struct nodes *t, key node)
{
    size_t i;
    if (key_len(node) == 0)
        return t->count == 0;
    if (last_step(node) == 1)
        return find(t->at, t->count, parent_of(node), &i) && t->at[t->count - 1] < node;
    return t->count > 0 && t->at[t->count - 1] == node - ((key)1 << step_shift(key_len(node)));
}

static bool take_node(struct dossier *d, const uint8_t *record, key node)
{
    struct nodes *t = &d->nodes;
    if (name_of(node) != 0 || !is_owner(record[10]) || !all_zero(record, 11, RECORD_BYTES))
        return false;
    if (t->count == MAX_NODES || !has_its_place(t, node))
        return false;
    nodes_put(t, t->count++, node, record[10]);
    return true;
}

static bool node_is_full(const struct attributes *t, key node)
{
    size_t back = MAX_ATTRIBUTES_ON_NODE;
    return t->count >= back && node_of(t->at[t->count - back]) == node;
}

/* What the record before stands on is there, so only a new node or object is looked up. */
static bool has_node(const struct dossier *d, key node)
{
    const struct attributes *t = &d->attributes;
    size_t i;
    return (t->count > 0 && node_of(t->at[t->count - 1]) == node) || find_node(d, node, &i);
}

static bool has_object(const struct dossier *d, key object)
{
    const struct permissions *t = &d->permissions;
    return (t->count > 0 && object_of(t->at[t->count - 1]) == object) || owner_of(d, object) != 0;
}

static bool take_attribute(struct dossier *d, const uint8_t *record, key object)
{
    struct attributes *t = &d->attributes;
    struct attribute row = {.owner = record[10], .value = {.kind = record[14], .whole = get32(record + 16)}};
    if (name_of(object) == 0 || !is_owner(row.owner) || !is_value(&row.value))
        return false;
    if (!all_zero(record, 11, 14) || record[15] != 0 || !all_zero(record, 20, RECORD_BYTES))
        return false;
    if (t->count > 0 && t->at[t->count - 1] == object)
        return false;
    if (t->count == MAX_ATTRIBUTES || node_is_full(t, node_of(object)) || !has_node(d, node_of(object)))
        return false;
    attributes_put(t, t->count++, object, row);
    return true;
}

static bool take_permission(struct dossier *d, const uint8_t *record, key object)
{
    struct permissions *t = &d->permissions;
    struct permission p = {.role = record[11], .action = record[12], .user = record[13],
                           .first = get_time(record + 16), .last = get_time(record + 24)};
    struct terms row = {.first = p.first, .last = p.last, .messages = get32(record + 32),
                        .agreements = get32(record + 36), .user = p.user};
    if (record[10] != 0 || record[14] != 0 || record[15] != 0 || !is_permission(&p, name_of(object) != 0))
        return false;
    key at = with_right(object, p.role, p.action);
    if (t->count == MAX_PERMISSIONS || !has_object(d, object) || clashes(t, at, &row))
        return false;
    permissions_put(t, t->count++, at, row);
    return true;
}

static bool take_record(struct dossier *d, const uint8_t *record)
{
    key object;
    if (!get_object(record, &object))
        return false;
    switch (record[0]) {
    case KIND_NODE:
        return take_node(d, record, object);
    case KIND_ATTRIBUTE:
        return take_attribute(d, record, object);
    case KIND_PERMISSION:
        return take_permission(d, record, object);
    default:
        return false;
    }
}

bool read_image(struct dossier *d, const uint8_t *image, size_t len, size_t *record)
{
    *record = 0;
    d->nodes.count = d->attributes.count = d->permissions.count = 0;
    if (len == 0 || len % RECORD_BYTES != 0 || len > MAX_IMAGE_BYTES)
        return false;
    for (size_t i = 0; i < len; i += RECORD_BYTES) {
        const uint8_t *at = image + i;
        *record += 1;
        if (i > 0 && memcmp(at - RECORD_BYTES, at, RECORD_BYTES) >= 0)
            return false;
        if (!take_record(d, at))
            return false;
    }
    return true;
}

/* Permissions stand last, so the first of them is one beyond the nodes and attributes. */
bool read_branch(struct dossier *d, const uint8_t *image, size_t len, uint8_t owner, size_t *record)
{
    bool good = read_image(d, image, len, record);
    if (d->permissions.count > 0) {
        *record = d->nodes.count + d->attributes.count + 1;
        return false;
    }
    for (size_t i = 0; i < d->nodes.count; i++)
        d->nodes.row[i] = owner;
    for (size_t i = 0; i < d->attributes.count; i++)
        d->attributes.row[i].owner = owner;
    return good;
}

size_t image_bytes(const struct dossier *d)
{
    return RECORD_BYTES * (d->nodes.count + d->attributes.count + d->permissions.count);
}

static uint8_t *begin_record(uint8_t *out, uint8_t kind, key object)
{
    memset(out, 0, RECORD_BYTES);
    out[0] = kind;
    out[1] = (uint8_t)key_len(object);
    for (unsigned n = 1; n <= MAX_DEPTH; n++)
        out[1 + n] = (uint8_t)step_of(object, n);
    out[8] = (uint8_t)(name_of(object) >> 8);
    out[9] = (uint8_t)name_of(object);
    return out;
}

static void write_attribute(uint8_t *out, key at, const struct attribute *row)
{
    begin_record(out, KIND_ATTRIBUTE, at);
    out[10] = row->owner;
    out[14] = row->value.kind;
    put32(out + 16, row->value.whole);
}

static void write_permission(uint8_t *out, key at, const struct terms *row)
{
    begin_record(out, KIND_PERMISSION, at);
    out[11] = role_of(at);
    out[12] = action_of(at);
    out[13] = row->user;
    put_time(out + 16, row->first);
    put_time(out + 24, row->last);
    put32(out + 32, row->messages);
    put32(out + 36, row->agreements);
}

void write_image(const struct dossier *d, uint8_t *out)
{
    for (size_t i = 0; i < d->nodes.count; i++, out += RECORD_BYTES)
        begin_record(out, KIND_NODE, d->nodes.at[i])[10] = d->nodes.row[i];
    for (size_t i = 0; i < d->attributes.count; i++, out += RECORD_BYTES)
        write_attribute(out, d->attributes.at[i], &d->attributes.row[i]);
    for (size_t i = 0; i < d->permissions.count; i++, out += RECORD_BYTES)
        write_permission(out, d->permissions.at[i], &d->permissions.row[i]);
}
