#include <string.h>

#include "line.h"

struct word {
    const char *text;
    size_t len;
};

/* A call's name and its operands, a letter for each (take_word); those after | may be left out. */
struct form {
    const char *name;
    enum call_kind kind;
    uint8_t number;
    const char *operands;
    size_t room;
};

static const struct form forms[] = {
    {"start", CALL_START, 0, "", 0},
    {"new", CALL_NEW, 0, "du", 0},
    {"sign", CALL_SIGN, 0, "ug", 0},
    {"load", CALL_LOAD, 0, "di", 0},
    {"save", CALL_SAVE, 0, "d|s", MAX_IMAGE_BYTES},
    {"clipboard", CALL_CLIPBOARD, 0, "|s", MAX_IMAGE_BYTES},
    {"log", CALL_LOG, 0, "|s", 2 * MAX_LOG},
    {"ask", CALL_ASK, 0, "irutpna|s", ASK_BYTES},
    {"store", CALL_STORE, 0, "df", MAX_IMAGE_BYTES},
    {"show", CALL_SHOW, 0, "d", 0},
    {"help", CALL_HELP, 0, "", 0},
    {"read-node", CALL_REQUEST, 1, "drutp", 0},
    {"read-attribute", CALL_REQUEST, 2, "drutpn", 0},
    {"add-node", CALL_REQUEST, 3, "drutp", 0},
    {"delete-branch", CALL_REQUEST, 4, "drutp", 0},
    {"copy-branch", CALL_REQUEST, 5, "drutp", 0},
    {"cut-branch", CALL_REQUEST, 6, "drutp", 0},
    {"paste-branch", CALL_REQUEST, 7, "drutp", 0},
    {"add-attribute", CALL_REQUEST, 8, "drutpnv", 0},
    {"delete-attribute", CALL_REQUEST, 9, "drutpn", 0},
    {"change-value", CALL_REQUEST, 10, "drutpnv", 0},
    {"copy-attribute", CALL_REQUEST, 11, "drutpn", 0},
    {"cut-attribute", CALL_REQUEST, 12, "drutpn", 0},
    {"paste-attribute", CALL_REQUEST, 13, "drutpn", 0},
    {"add-permission", CALL_REQUEST, 14, "drutpnRAUFLMG", 0},
    {"delete-permission", CALL_REQUEST, 15, "drutpnRAUFLMG", 0},
    {"delegate", CALL_REQUEST, 16, "drutpnRAUFLMG", 0},
    {"add-image", CALL_REQUEST, 17, "drutpi", 0},
    {"request", CALL_REQUEST, 0, "#drutpnvRAUFLMG|i", 0},
};

/* The next word of a line; an empty one at its end. */
static struct word next_word(const char **at, const char *end)
{
    while (*at < end && **at == ' ')
        (*at)++;
    struct word w = {*at, 0};
    while (*at < end && **at != ' ')
        (*at)++;
    w.len = (size_t)(*at - w.text);
    return w;
}

static bool is_word(struct word w, const char *text)
{
    return w.len == strlen(text) && memcmp(w.text, text, w.len) == 0;
}

static bool get_number(struct word w, uint64_t max, uint64_t *n)
{
    *n = 0;
    for (size_t i = 0; i < w.len; i++) {
        if (w.text[i] < '0' || w.text[i] > '9')
            return false;
        uint64_t digit = (uint64_t)(w.text[i] - '0');
        if (*n > (max - digit) / 10)
            return false;
        *n = *n * 10 + digit;
    }
    return w.len > 0;
}

static bool get_byte(struct word w, uint8_t *n)
{
    uint64_t wide;
    bool good = get_number(w, UINT8_MAX, &wide);
    *n = (uint8_t)wide;
    return good;
}

static bool get_word32(struct word w, uint32_t *n)
{
    uint64_t wide;
    bool good = get_number(w, UINT32_MAX, &wide);
    *n = (uint32_t)wide;
    return good;
}

static bool get_time(struct word w, int64_t *time)
{
    uint64_t size;
    if (w.len > 0 && w.text[0] == '-') {
        struct word rest = {w.text + 1, w.len - 1};
        if (!get_number(rest, (uint64_t)INT64_MAX + 1, &size))
            return false;
        *time = (int64_t)(0 - size);
        return true;
    }
    if (!get_number(w, INT64_MAX, &size))
        return false;
    *time = (int64_t)size;
    return true;
}

/* Steps beyond the sixth are read for their form; the length says that they were there. */
static bool get_path(struct word w, struct path *p)
{
    const char *end = w.text + w.len, *at = w.text;
    memset(p, 0, sizeof *p);
    if (is_word(w, "/"))
        return true;
    for (;;) {
        struct word step = {at, 0};
        uint8_t n;
        while (at < end && *at != '.')
            at++;
        step.len = (size_t)(at - step.text);
        if (!get_byte(step, &n))
            return false;
        if (p->len < MAX_DEPTH)
            p->step[p->len] = n;
        if (p->len < UINT8_MAX)
            p->len++;
        if (at == end)
            return true;
        at++;
    }
}

static int hex_digit(char c)
{
    if (c >= '0' && c <= '9')
        return c - '0';
    if (c >= 'a' && c <= 'f')
        return c - 'a' + 10;
    if (c >= 'A' && c <= 'F')
        return c - 'A' + 10;
    return -1;
}

/* Hex digits, two to a byte, at most room bytes. */
static bool get_hex(struct word w, uint8_t *out, size_t room, size_t *len)
{
    if (w.len % 2 != 0 || w.len / 2 > room)
        return false;
    for (size_t i = 0; i < w.len; i += 2) {
        int high = hex_digit(w.text[i]), low = hex_digit(w.text[i + 1]);
        if (high < 0 || low < 0)
            return false;
        out[i / 2] = (uint8_t)(high << 4 | low);
    }
    *len = w.len / 2;
    return true;
}

static bool starts(struct word *w, const char *with)
{
    size_t len = strlen(with);
    if (w->len < len || memcmp(w->text, with, len) != 0)
        return false;
    w->text += len;
    w->len -= len;
    return true;
}

static bool get_value(struct word w, struct value *v)
{
    uint8_t bits[4];
    size_t len;
    if (starts(&w, "whole:")) {
        v->kind = WHOLE;
        return get_word32(w, &v->whole);
    }
    if (!starts(&w, "reading:") || w.len != 8 || !get_hex(w, bits, sizeof bits, &len))
        return false;
    v->kind = READING;
    v->whole = (uint32_t)bits[0] << 24 | (uint32_t)bits[1] << 16 | (uint32_t)bits[2] << 8 | bits[3];
    return true;
}

static bool get_file_name(struct word w, char *name)
{
    if (w.len == 0 || w.len > MAX_FILE_NAME || memchr(w.text, 0, w.len) != NULL)
        return false;
    memcpy(name, w.text, w.len);
    name[w.len] = 0;
    return true;
}

/* All of a file, if it is no longer than room. */
static bool get_file(const char *name, uint8_t *out, size_t room, size_t *len)
{
    FILE *file = fopen(name, "rb");
    if (file == NULL)
        return false;
    *len = fread(out, 1, room, file);
    bool good = getc(file) == EOF && !ferror(file);
    fclose(file);
    return good;
}

static bool get_image(struct word w, struct line_call *c)
{
    struct request *r = &c->request;
    r->image = c->bytes;
    if (is_word(w, "-"))
        return true;
    if (starts(&w, "@"))
        return get_file_name(w, c->file) && get_file(c->file, c->bytes, sizeof c->bytes, &r->image_len);
    return get_hex(w, c->bytes, sizeof c->bytes, &r->image_len);
}

static bool get_name(struct word w, uint16_t *name)
{
    uint64_t wide;
    bool good = get_number(w, UINT16_MAX, &wide);
    *name = (uint16_t)wide;
    return good;
}

static bool get_room(struct word w, size_t *room)
{
    uint64_t wide;
    bool good = get_number(w, MAX_ROOM, &wide);
    *room = (size_t)wide;
    return good;
}

/* Takes one word as the operand that a letter of a form stands for; says of a bad one what it is not. */
static const char *take_word(char letter, struct word w, struct line_call *c)
{
    struct request *r = &c->request;
    switch (letter) {
    case '#': return get_byte(w, &r->number) ? NULL : "no request number 0..255";
    case 'd': return get_byte(w, &r->dossier) ? NULL : "no dossier number 0..255";
    case 'r': return get_byte(w, &r->role) ? NULL : "no role 0..255";
    case 'u': return get_byte(w, &r->user) ? NULL : "no user 0..255";
    case 't': return get_time(w, &r->time) ? NULL : "no time of 64 bits";
    case 'p': return get_path(w, &r->path) ? NULL : "no path of steps 0..255";
    case 'n': return get_name(w, &r->name) ? NULL : "no name 0..65535";
    case 'v': return get_value(w, &r->value) ? NULL : "no value whole:N or reading:H";
    case 'R': return get_byte(w, &r->permission.role) ? NULL : "no role 0..255 in the permission";
    case 'A': return get_byte(w, &r->permission.action) ? NULL : "no action 0..255 in the permission";
    case 'U': return get_byte(w, &r->permission.user) ? NULL : "no user 0..255 in the permission";
    case 'F': return get_time(w, &r->permission.first) ? NULL : "no first time of 64 bits";
    case 'L': return get_time(w, &r->permission.last) ? NULL : "no last time of 64 bits";
    case 'M': return get_word32(w, &r->permission.messages) ? NULL : "no messages of 32 bits";
    case 'G': return get_word32(w, &r->permission.agreements) ? NULL : "no agreements of 32 bits";
    case 'g': return get_byte(w, &c->agreement) ? NULL : "no agreement 0..255";
    case 'a': return get_byte(w, &c->action) ? NULL : "no action 0..255";
    case 's': return get_room(w, &c->room) ? NULL : "no room 0..32768";
    case 'f': return get_file_name(w, c->file) ? NULL : "no file name";
    default: return get_image(w, c) ? NULL : "no image in hex, or no file to read";
    }
}

static const struct form *form_of(struct word name)
{
    for (size_t i = 0; i < sizeof forms / sizeof forms[0]; i++)
        if (is_word(name, forms[i].name))
            return &forms[i];
    return NULL;
}

bool parse_line(const char *line, size_t len, struct line_call *c, const char **why)
{
    const char *end = line + len;
    const struct form *form = form_of(next_word(&line, end));
    bool may_end = false;
    *why = "no call of that name";
    if (form == NULL)
        return false;
    memset(&c->request, 0, sizeof c->request);
    c->kind = form->kind;
    c->name = form->name;
    c->request.number = form->number;
    c->request.value.kind = WHOLE;
    c->room = form->room;
    for (const char *letter = form->operands; *letter != 0; letter++) {
        if (*letter == '|') {
            may_end = true;
            continue;
        }
        struct word w = next_word(&line, end);
        if (w.len == 0 && may_end)
            return true;
        *why = w.len == 0 ? "a word is missing" : take_word(*letter, w, c);
        if (*why != NULL)
            return false;
    }
    *why = "a word too many";
    return next_word(&line, end).len == 0;
}
