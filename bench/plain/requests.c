/* The request number picks the rule. Each rule tests its refusals in their order, then is carried out. */
#include "call.h"

static size_t bits_in(uint32_t set)
{
    size_t n = 0;
    for (; set != 0; set &= set - 1)
        n++;
    return n;
}

enum refusal meet(struct session *s, const struct call *c)
{
    if ((c->due.agreements & ~s->signatures[c->who.user - 1]) != 0)
        return UNSIGNED;
    if (s->log_count + bits_in(c->due.messages) > MAX_LOG)
        return LOG_FULL;
    uint8_t n = 0;
    for (uint32_t left = c->due.messages; left != 0; left >>= 1, n++)
        if (left & 1)
            s->log[s->log_count++] = (struct entry){c->who.user, n};
    return GRANTED;
}

enum refusal plain_request(struct session *s, const struct request *r, struct answer *a)
{
    switch (r->number) {
    case 1: return plain_read_node(s, r, a);
    case 2: return plain_read_attribute(s, r, a);
    case 3: return plain_add_node(s, r);
    case 4: return plain_delete_branch(s, r);
    case 5: return plain_copy_branch(s, r);
    case 6: return plain_cut_branch(s, r);
    case 7: return plain_paste_branch(s, r);
    case 8: return plain_add_attribute(s, r);
    case 9: return plain_delete_attribute(s, r);
    case 10: return plain_change_value(s, r);
    case 11: return plain_copy_attribute(s, r);
    case 12: return plain_cut_attribute(s, r);
    case 13: return plain_paste_attribute(s, r);
    case 14: return plain_add_permission(s, r);
    case 15: return plain_delete_permission(s, r);
    case 16: return plain_delegate(s, r);
    case 17: return plain_add_image(s, r, a);
    default: return BAD_OPERAND;
    }
}
