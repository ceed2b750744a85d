/* The dossier editor of document 01, with Asks 1 and 2 of document 02, in plain C: the baseline that the proved editor is measured against.
 * One session, altered where it stands; tables in arrays in image order; nothing is allocated. */
#ifndef PLAIN_H
#define PLAIN_H

#include <stddef.h>
#include <stdint.h>

enum {
    MAX_USER = 64,
    MAX_ROLE = 15,
    MAX_DEPTH = 6,
    MAX_STEP = 32,
    MAX_NODES = 64,
    MAX_ATTRIBUTES = 256,
    MAX_ATTRIBUTES_ON_NODE = 16,
    MAX_PERMISSIONS = 128,
    MAX_LOG = 256,
    PROVISIONS = 32, /* messages, agreements: 0..31 */
    RECORD_BYTES = 40,
    MAX_IMAGE_BYTES = RECORD_BYTES * (MAX_NODES + MAX_ATTRIBUTES + MAX_PERMISSIONS),
    ASK_BYTES = 8
};

enum refusal {
    GRANTED = 0,
    BAD_OPERAND = 1,
    EMPTY_PATH = 2,
    ABSENT = 3,
    NAME_TAKEN = 4,
    WRONG_CLIPBOARD = 5,
    NOT_GRANTED = 6,
    NOT_COVERED = 7,
    CLASH = 8,
    NO_ROOM = 9, /* in a lent buffer */
    UNSIGNED = 10,
    LOG_FULL = 11,
    BAD_IMAGE = 12,
    NODES_FULL = 13, /* the shelves, tested in this order after CLASH */
    TOO_DEEP = 14,
    CHILDREN_FULL = 15,
    ATTRIBUTES_FULL = 16,
    PERMISSIONS_FULL = 17
};

enum { READ = 1, CHANGE = 2, PRINT = 3, DELEGATE = 4 };
enum { WHOLE = 1, READING = 2 };
enum { CLIPBOARD_EMPTY = 0, CLIPBOARD_BRANCH = 1, CLIPBOARD_ATTRIBUTE = 2 };

/* A path as the host gives it; steps beyond len are not looked at. */
struct path {
    uint8_t len;
    uint8_t step[MAX_DEPTH];
};

struct value {
    uint8_t kind; /* WHOLE or READING */
    union {
        uint32_t whole;
        float reading;
    };
};

/* user 0 is any user; bit n of messages and agreements is number n. */
struct permission {
    uint8_t role, action, user;
    int64_t first, last;
    uint32_t messages, agreements;
};

/* A guarded request; each looks only at the operands of its rule. */
struct request {
    uint8_t number, dossier, role, user;
    int64_t time;
    struct path path;
    uint16_t name;
    struct value value;
    struct permission permission;
    const uint8_t *image; /* of a branch: nodes and attributes */
    size_t image_len;
};

/* What a read answers; kept as it was by every other request and by a refusal, but for the record of a bad image. */
struct answer {
    uint8_t children;
    uint8_t name_count;
    uint16_t names[MAX_ATTRIBUTES_ON_NODE];
    struct value value;
    size_t record; /* counted from 1, 0 for a bad length; after BAD_IMAGE alone */
};

/* An address: path length, six steps, name, role, action; numbers in the order of the image's bytes (keys.h). */
typedef uint64_t key;

struct attribute {
    uint8_t owner;
    struct value value;
};

/* A permission's rest; its object, role and action are in its key. */
struct terms {
    int64_t first, last;
    uint32_t messages, agreements;
    uint8_t user;
};

struct nodes {
    size_t count;
    key at[MAX_NODES];
    uint8_t row[MAX_NODES]; /* the owner */
};

struct attributes {
    size_t count;
    key at[MAX_ATTRIBUTES];
    struct attribute row[MAX_ATTRIBUTES];
};

struct permissions {
    size_t count;
    key at[MAX_PERMISSIONS];
    struct terms row[MAX_PERMISSIONS];
};

struct dossier {
    struct nodes nodes;
    struct attributes attributes;
    struct permissions permissions;
};

struct clipboard {
    uint8_t kind;
    struct dossier held; /* an attribute is held at the empty path, with no node */
};

struct entry {
    uint8_t user, message;
};

struct session {
    struct dossier dossier[2];
    struct clipboard clipboard;
    uint32_t signatures[MAX_USER]; /* one row of agreements for each user */
    size_t log_count;
    struct entry log[MAX_LOG];
};

/* The calls without a guard. */
void plain_start(struct session *s);
enum refusal plain_new(struct session *s, uint8_t n, uint8_t owner);
enum refusal plain_load(struct session *s, uint8_t n, const uint8_t *image, size_t len, size_t *record);
enum refusal plain_save(const struct session *s, uint8_t n, uint8_t *out, size_t out_len, size_t *written);
enum refusal plain_save_clipboard(const struct session *s, uint8_t *out, size_t out_len, size_t *written);
enum refusal plain_sign(struct session *s, uint8_t user, uint8_t agreement);
enum refusal plain_take_log(struct session *s, uint8_t *out, size_t out_len, size_t *written);
enum refusal plain_ask(const uint8_t *image, size_t image_len, uint8_t role, uint8_t user, int64_t time,
                       const struct path *path, uint16_t name, uint8_t action, uint8_t *out, size_t out_len);

/* The seventeen requests by their number; any other number is refused 1. */
enum refusal plain_request(struct session *s, const struct request *r, struct answer *a);

enum refusal plain_read_node(struct session *s, const struct request *r, struct answer *a);
enum refusal plain_read_attribute(struct session *s, const struct request *r, struct answer *a);
enum refusal plain_add_node(struct session *s, const struct request *r);
enum refusal plain_delete_branch(struct session *s, const struct request *r);
enum refusal plain_copy_branch(struct session *s, const struct request *r);
enum refusal plain_cut_branch(struct session *s, const struct request *r);
enum refusal plain_paste_branch(struct session *s, const struct request *r);
enum refusal plain_add_attribute(struct session *s, const struct request *r);
enum refusal plain_delete_attribute(struct session *s, const struct request *r);
enum refusal plain_change_value(struct session *s, const struct request *r);
enum refusal plain_copy_attribute(struct session *s, const struct request *r);
enum refusal plain_cut_attribute(struct session *s, const struct request *r);
enum refusal plain_paste_attribute(struct session *s, const struct request *r);
enum refusal plain_add_permission(struct session *s, const struct request *r);
enum refusal plain_delete_permission(struct session *s, const struct request *r);
enum refusal plain_delegate(struct session *s, const struct request *r);
enum refusal plain_add_image(struct session *s, const struct request *r, struct answer *a);

#endif
