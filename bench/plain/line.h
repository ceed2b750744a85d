/* The language of PROTOCOL.md, level 2: a line to a call, the call made on a session, its answer as a line. */
#ifndef PLAIN_LINE_H
#define PLAIN_LINE_H

#include <stdbool.h>
#include <stdio.h>

#include "plain.h"

enum {
    MAX_LINE = 100000,
    MAX_WORD_BYTES = MAX_LINE / 2, /* an image written in hex */
    MAX_ROOM = 32768,
    MAX_FILE_NAME = 4095
};

enum call_kind {
    CALL_REQUEST,
    CALL_START,
    CALL_NEW,
    CALL_SIGN,
    CALL_LOAD,
    CALL_SAVE,
    CALL_CLIPBOARD,
    CALL_LOG,
    CALL_ASK,
    CALL_STORE,
    CALL_SHOW,
    CALL_HELP
};

struct line_call {
    enum call_kind kind;
    const char *name; /* its first word */
    struct request request; /* also the operands of the other calls; an owner is its user */
    uint8_t agreement, action;
    size_t room;
    uint8_t bytes[MAX_WORD_BYTES]; /* of the image */
    char file[MAX_FILE_NAME + 1];
};

struct line_result {
    enum refusal refusal;
    size_t written;
    struct answer answer;
};

/* False if the line is no call; *why says it in a few words. */
bool parse_line(const char *line, size_t len, struct line_call *c, const char **why);

/* Makes the call; buffer has room for MAX_ROOM bytes, of which c->room are lent. Not for store, show and help. */
void make_call(struct session *s, const struct line_call *c, uint8_t *buffer, struct line_result *r);

void print_result(FILE *to, const struct line_call *c, const struct line_result *r, const uint8_t *buffer);

/* The tree of a dossier as a person would draw it. */
void show_dossier(FILE *to, const struct dossier *d);

#endif
