/* The calls without a guard. */
#include "decide.h"
#include "image.h"
#include "tables.h"

static bool is_dossier(uint8_t n)
{
    return n == 1 || n == 2;
}

void plain_start(struct session *s)
{
    memset(s, 0, sizeof *s);
    bare_root(&s->dossier[0], 1);
    bare_root(&s->dossier[1], 1);
}

enum refusal plain_new(struct session *s, uint8_t n, uint8_t owner)
{
    if (!is_dossier(n) || owner < 1 || owner > MAX_USER)
        return BAD_OPERAND;
    bare_root(&s->dossier[n - 1], owner);
    return GRANTED;
}

/* Read aside first: a bad image leaves the dossier as it was. */
enum refusal plain_load(struct session *s, uint8_t n, const uint8_t *image, size_t len, size_t *record)
{
    struct dossier read;
    *record = 0;
    if (!is_dossier(n))
        return BAD_OPERAND;
    if (!read_image(&read, image, len, record))
        return BAD_IMAGE;
    *record = 0;
    s->dossier[n - 1] = read;
    return GRANTED;
}

static enum refusal write_out(const struct dossier *d, uint8_t *out, size_t out_len, size_t *written)
{
    if (out_len < image_bytes(d))
        return NO_ROOM;
    write_image(d, out);
    *written = image_bytes(d);
    return GRANTED;
}

enum refusal plain_save(const struct session *s, uint8_t n, uint8_t *out, size_t out_len, size_t *written)
{
    *written = 0;
    if (!is_dossier(n))
        return BAD_OPERAND;
    return write_out(&s->dossier[n - 1], out, out_len, written);
}

/* An empty clipboard has no rows; a cached attribute stands in its tables at the empty path, with no node. */
enum refusal plain_save_clipboard(const struct session *s, uint8_t *out, size_t out_len, size_t *written)
{
    *written = 0;
    return write_out(&s->clipboard.held, out, out_len, written);
}

enum refusal plain_sign(struct session *s, uint8_t user, uint8_t agreement)
{
    if (user < 1 || user > MAX_USER || agreement >= PROVISIONS)
        return BAD_OPERAND;
    s->signatures[user - 1] |= UINT32_C(1) << agreement;
    return GRANTED;
}

enum refusal plain_take_log(struct session *s, uint8_t *out, size_t out_len, size_t *written)
{
    *written = 0;
    if (out_len < 2 * s->log_count)
        return NO_ROOM;
    for (size_t i = 0; i < s->log_count; i++) {
        out[2 * i] = s->log[i].user;
        out[2 * i + 1] = s->log[i].message;
    }
    *written = 2 * s->log_count;
    s->log_count = 0;
    return GRANTED;
}

static bool may(const struct dossier *d, const struct subject *who, key object, uint8_t action,
                struct provisions *due)
{
    key node = node_of(object);
    if (action == READ)
        return may_read(d, who, object, due);
    if (object == node)
        return may_change(d, who, node, due);
    return may_read(d, who, object, due) && may_change(d, who, node, due);
}

enum refusal plain_ask(const uint8_t *image, size_t image_len, uint8_t role, uint8_t user, int64_t time,
                       const struct path *path, uint16_t name, uint8_t action, uint8_t *out, size_t out_len)
{
    struct subject who = {role, user, time};
    struct provisions due = {0, 0};
    struct dossier d;
    key node;
    size_t record;
    if (!is_subject(role, user) || !pack_path(path->len, path->step, &node) || (action != READ && action != CHANGE))
        return BAD_OPERAND;
    if (!read_image(&d, image, image_len, &record))
        return BAD_IMAGE;
    if (owner_of(&d, with_name(node, name)) == 0)
        return ABSENT;
    if (!may(&d, &who, with_name(node, name), action, &due))
        return NOT_GRANTED;
    if (out_len < ASK_BYTES)
        return NO_ROOM;
    put32(out, due.messages);
    put32(out + 4, due.agreements);
    return GRANTED;
}
