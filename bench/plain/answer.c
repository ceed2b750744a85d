#include <inttypes.h>

#include "line.h"

void make_call(struct session *s, const struct line_call *c, uint8_t *buffer, struct line_result *r)
{
    const struct request *q = &c->request;
    r->written = 0;
    r->refusal = GRANTED;
    switch (c->kind) {
    case CALL_REQUEST:
        r->refusal = plain_request(s, q, &r->answer);
        break;
    case CALL_START:
        plain_start(s);
        break;
    case CALL_NEW:
        r->refusal = plain_new(s, q->dossier, q->user);
        break;
    case CALL_SIGN:
        r->refusal = plain_sign(s, q->user, c->agreement);
        break;
    case CALL_LOAD:
        r->refusal = plain_load(s, q->dossier, q->image, q->image_len, &r->answer.record);
        break;
    case CALL_SAVE:
        r->refusal = plain_save(s, q->dossier, buffer, c->room, &r->written);
        break;
    case CALL_CLIPBOARD:
        r->refusal = plain_save_clipboard(s, buffer, c->room, &r->written);
        break;
    case CALL_LOG:
        r->refusal = plain_take_log(s, buffer, c->room, &r->written);
        break;
    case CALL_ASK:
        r->refusal = plain_ask(q->image, q->image_len, q->role, q->user, q->time, &q->path, q->name, c->action,
                               buffer, c->room);
        r->written = r->refusal == GRANTED ? ASK_BYTES : 0;
        break;
    default:
        break;
    }
}

static void print_value(FILE *to, const struct value *v)
{
    if (v->kind == WHOLE)
        fprintf(to, "ok whole:%" PRIu32 "\n", v->whole);
    else
        fprintf(to, "ok reading:%08" PRIx32 "\n", v->whole);
}

static void print_node(FILE *to, const struct answer *a)
{
    fprintf(to, "ok children=%u names=", a->children);
    for (unsigned i = 0; i < a->name_count; i++)
        fprintf(to, i == 0 ? "%u" : ",%u", a->names[i]);
    putc('\n', to);
}

static void print_bytes(FILE *to, const uint8_t *bytes, size_t len)
{
    fprintf(to, "ok bytes=%zu ", len);
    for (size_t i = 0; i < len; i++)
        fprintf(to, "%02x", bytes[i]);
    fputs(len == 0 ? "-\n" : "\n", to);
}

static void print_provisions(FILE *to, const uint8_t *b)
{
    uint32_t messages = (uint32_t)b[0] << 24 | (uint32_t)b[1] << 16 | (uint32_t)b[2] << 8 | b[3];
    uint32_t agreements = (uint32_t)b[4] << 24 | (uint32_t)b[5] << 16 | (uint32_t)b[6] << 8 | b[7];
    fprintf(to, "ok messages=%" PRIu32 " agreements=%" PRIu32 "\n", messages, agreements);
}

static void print_grant(FILE *to, const struct line_call *c, const struct line_result *r, const uint8_t *buffer)
{
    unsigned number = c->kind == CALL_REQUEST ? c->request.number : 0;
    if (number == 1)
        print_node(to, &r->answer);
    else if (number == 2)
        print_value(to, &r->answer.value);
    else if (c->kind == CALL_SAVE || c->kind == CALL_CLIPBOARD || c->kind == CALL_LOG)
        print_bytes(to, buffer, r->written);
    else if (c->kind == CALL_ASK)
        print_provisions(to, buffer);
    else
        fputs("ok\n", to);
}

void print_result(FILE *to, const struct line_call *c, const struct line_result *r, const uint8_t *buffer)
{
    if (r->refusal == GRANTED)
        print_grant(to, c, r, buffer);
    else if (r->refusal == BAD_IMAGE && c->kind != CALL_ASK)
        fprintf(to, "refused 12 record=%zu\n", r->answer.record);
    else
        fprintf(to, "refused %d\n", (int)r->refusal);
}
