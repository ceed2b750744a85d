/* Addresses packed into one number, so that two compare as their image bytes do:
 * bits 59..61 path length, 23..58 six steps of six bits, 7..22 name, 3..6 role, 0..2 action.
 * A node's key ends in its path, an attribute's in its name, a permission's in role and action. */
#ifndef PLAIN_KEYS_H
#define PLAIN_KEYS_H

#include <stdbool.h>

#include "plain.h"

enum { NAME_SHIFT = 7, ROLE_SHIFT = 3, PATH_SHIFT = 23, STEP_BITS = 6, LEN_SHIFT = PATH_SHIFT + MAX_DEPTH * STEP_BITS };

#define STEP_MASK ((key)63)
#define REST_MASK (((key)1 << PATH_SHIFT) - 1)
#define STEPS_MASK ((((key)1 << LEN_SHIFT) - 1) & ~REST_MASK)

static inline unsigned key_len(key k)
{
    return (unsigned)(k >> LEN_SHIFT);
}

static inline unsigned step_shift(unsigned n)
{
    return PATH_SHIFT + STEP_BITS * (MAX_DEPTH - n);
}

static inline key node_of(key k)
{
    return k & ~REST_MASK;
}

static inline key object_of(key k)
{
    return k >> NAME_SHIFT << NAME_SHIFT;
}

static inline uint16_t name_of(key k)
{
    return (uint16_t)(k >> NAME_SHIFT);
}

static inline key with_name(key node, uint16_t name)
{
    return node | (key)name << NAME_SHIFT;
}

static inline key with_right(key object, uint8_t role, uint8_t action)
{
    return object | (key)role << ROLE_SHIFT | action;
}

static inline uint8_t role_of(key k)
{
    return k >> ROLE_SHIFT & 15;
}

static inline uint8_t action_of(key k)
{
    return k & 7;
}

static inline unsigned step_of(key k, unsigned n)
{
    return (unsigned)(k >> step_shift(n) & STEP_MASK);
}

static inline unsigned last_step(key node)
{
    return step_of(node, key_len(node));
}

/* The node n-th below; node is less than six steps long. */
static inline key child_of(key node, unsigned n)
{
    unsigned len = key_len(node) + 1;
    return node + ((key)1 << LEN_SHIFT) + ((key)n << step_shift(len));
}

/* The node above; node is not the root. */
static inline key parent_of(key node)
{
    unsigned len = key_len(node);
    return (node & ~(STEP_MASK << step_shift(len))) - ((key)1 << LEN_SHIFT);
}

/* The least key above everything that stands at this very path. */
static inline key after_node(key node)
{
    return node + ((key)1 << PATH_SHIFT);
}

/* The steps of k up to n, the others shifted out. An unused step is 0, so a shorter path equals none of length n. */
static inline key steps_to(key k, unsigned n)
{
    return (k & STEPS_MASK) >> step_shift(n);
}

static inline bool is_in_branch(key k, key q)
{
    unsigned n = key_len(q);
    return steps_to(k, n) == steps_to(q, n);
}

/* A node is added at q: q and its right siblings move one up, with all below. */
static inline key moved_up(key k, key q)
{
    unsigned n = key_len(q);
    key from = steps_to(q, n), at = steps_to(k, n);
    bool moves = at >= from && at <= (from | STEP_MASK);
    return k + ((key)moves << step_shift(n));
}

/* The branch at q is gone: its right siblings move one down, with all below. */
static inline key moved_down(key k, key q)
{
    unsigned n = key_len(q);
    key from = steps_to(q, n), at = steps_to(k, n);
    bool moves = at > from && at <= (from | STEP_MASK);
    return k - ((key)moves << step_shift(n));
}

/* The prefix of length n taken off. */
static inline key prefix_off(key k, unsigned n)
{
    key steps = (k & STEPS_MASK) << STEP_BITS * n & STEPS_MASK;
    return ((k >> LEN_SHIFT) - n) << LEN_SHIFT | steps | (k & REST_MASK);
}

/* The prefix q put on. */
static inline key prefix_on(key k, key q)
{
    unsigned n = key_len(q);
    key steps = ((k & STEPS_MASK) >> STEP_BITS * n & STEPS_MASK) | (q & STEPS_MASK);
    return ((k >> LEN_SHIFT) + n) << LEN_SHIFT | steps | (k & REST_MASK);
}

/* Packs a path; false if its length or a step is out of range. */
static inline bool pack_path(unsigned len, const uint8_t *step, key *node)
{
    if (len > MAX_DEPTH)
        return false;
    key k = (key)len << LEN_SHIFT;
    for (unsigned n = 1; n <= len; n++) {
        if (step[n - 1] < 1 || step[n - 1] > MAX_STEP)
            return false;
        k |= (key)step[n - 1] << step_shift(n);
    }
    *node = k;
    return true;
}

#endif
