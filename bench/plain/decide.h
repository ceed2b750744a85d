/* Who may: matching, clashing, covering, and what a grant asks for. */
#ifndef PLAIN_DECIDE_H
#define PLAIN_DECIDE_H

#include <stdbool.h>

#include "plain.h"

struct subject {
    uint8_t role, user;
    int64_t time;
};

struct provisions {
    uint32_t messages, agreements;
};

/* Each of these joins the provisions of what it grants into *due. */
bool grants(const struct dossier *d, const struct subject *who, key object, uint8_t action, struct provisions *due);
bool may_read(const struct dossier *d, const struct subject *who, key object, struct provisions *due);
bool may_change(const struct dossier *d, const struct subject *who, key node, struct provisions *due);

bool clashes(const struct permissions *t, key at, const struct terms *new);
bool covers(const struct permissions *t, const struct subject *who, key object, uint8_t action,
            const struct terms *new);

bool is_subject(uint8_t role, uint8_t user);
bool is_permission(const struct permission *p, bool on_attribute);
bool is_value(const struct value *v);

/* The place of a permission in image order; true if the very one stands there. */
bool find_permission(const struct permissions *t, key at, const struct terms *p, size_t *place);

#endif
