/* May this user read or change this object? The call of a front end that greys out menus.
 *
 * One function, on bytes and numbers: no session, no state, no allocation, nothing kept between calls.
 * It promises of every call, whatever the bytes and the numbers are:
 *
 *  - it returns, with one of the six numbers below;
 *  - any bytes are taken as an image, good or bad, of any length; none of them is altered;
 *  - on a grant out[0..3] are the messages to be logged and out[4..7] the agreements to be signed, both
 *    big-endian, bit n for number n; an owner is granted with eight zeros;
 *  - on a refusal nothing is written;
 *  - bytes of out beyond the eighth stay as they were, always;
 *  - steps beyond len are not looked at: any numbers will do there;
 *  - two calls with equal bytes and numbers give equal results.
 *
 * What the caller must see to, because nothing can test it:
 *
 *  - image points to image_len bytes that can be read, out to out_len bytes that can be written;
 *  - the two do not overlap, and nobody else writes to either during the call;
 *  - a buffer of no bytes still has a pointer that is not NULL.
 */
#ifndef DOSSIER_ASK_H
#define DOSSIER_ASK_H

#include <stddef.h>
#include <stdint.h>

#ifdef __cplusplus
extern "C" {
#endif

/* The result. Tested in the order 1, 12, 3, 6, 9: where several apply the first of these is given. */
enum {
    DOSSIER_GRANTED = 0,     /* granted; the provisions are in out[0..7] */
    DOSSIER_BAD_OPERAND = 1, /* role not 1..15, user not 1..64, len above 6, a step within len not 1..32, or action
                                neither 1 nor 2 */
    DOSSIER_ABSENT = 3,      /* no such node, or no such attribute on it */
    DOSSIER_NOT_GRANTED = 6, /* the user neither owns what is needed nor has permission now */
    DOSSIER_NO_ROOM = 9,     /* granted, but out_len is below 8; never a bound of a dossier: an image beyond one is 12,
                                and what a request would overfill is told by 13 to 17, which ask does not give */
    DOSSIER_BAD_IMAGE = 12   /* image_len is 0, not a multiple of 40 or above 17,920, or a record breaks a rule */
};

/* The actions that can be asked about. */
enum {
    DOSSIER_READ = 1,  /* read of the object */
    DOSSIER_CHANGE = 2 /* change of a node; of an attribute: its read and the change of its node, joined */
};

enum {
    DOSSIER_RECORD_BYTES = 40,
    DOSSIER_IMAGE_BYTES = 17920, /* the longest good image */
    DOSSIER_ASK_BYTES = 8,       /* the room that a grant needs */
    DOSSIER_MAX_ROLE = 15,
    DOSSIER_MAX_USER = 64,
    DOSSIER_MAX_DEPTH = 6,
    DOSSIER_MAX_STEP = 32
};

/* image, image_len: a dossier as save writes it.
 * role, user, time: who asks, and when (seconds; any number, also negative).
 * len, s1..s6: the path of the node, len steps from the root; 0 is the root itself.
 * name: 0 for the node itself, else the attribute of that name on it.
 * action: DOSSIER_READ or DOSSIER_CHANGE.
 * out, out_len: the lent buffer for the provisions. */
uint32_t dossier_ask(const uint8_t *image, size_t image_len, uint8_t role, uint8_t user, int64_t time, uint8_t len,
                     uint8_t s1, uint8_t s2, uint8_t s3, uint8_t s4, uint8_t s5, uint8_t s6, uint16_t name,
                     uint8_t action, uint8_t *out, size_t out_len);

#ifdef __cplusplus
}
#endif

#endif
