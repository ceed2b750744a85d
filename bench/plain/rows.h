/* What is done to one table, for any table: define TABLE (nodes, attributes or permissions) and ROW, then include. */

#define JOIN_(a, b) a##_##b
#define JOIN(a, b) JOIN_(a, b)
#define T(name) JOIN(TABLE, name)

static inline void T(put)(struct TABLE *t, size_t i, key at, ROW row)
{
    t->at[i] = at;
    t->row[i] = row;
}

/* Opens n places before place i. */
static inline void T(open)(struct TABLE *t, size_t i, size_t n)
{
    memmove(t->at + i + n, t->at + i, (t->count - i) * sizeof t->at[0]);
    memmove(t->row + i + n, t->row + i, (t->count - i) * sizeof t->row[0]);
    t->count += n;
}

/* Takes out n rows from place i on. */
static inline void T(close)(struct TABLE *t, size_t i, size_t n)
{
    memmove(t->at + i, t->at + i + n, (t->count - i - n) * sizeof t->at[0]);
    memmove(t->row + i, t->row + i + n, (t->count - i - n) * sizeof t->row[0]);
    t->count -= n;
}

static inline void T(shift_up)(struct TABLE *t, key q)
{
    for (size_t i = 0; i < t->count; i++)
        t->at[i] = moved_up(t->at[i], q);
}

static inline void T(delete_branch)(struct TABLE *t, key q)
{
    size_t kept = 0;
    for (size_t i = 0; i < t->count; i++) {
        if (is_in_branch(t->at[i], q))
            continue;
        T(put)(t, kept, moved_down(t->at[i], q), t->row[i]);
        kept++;
    }
    t->count = kept;
}

static inline void T(copy_branch)(struct TABLE *to, const struct TABLE *from, key q)
{
    to->count = 0;
    for (size_t i = 0; i < from->count; i++)
        if (is_in_branch(from->at[i], q))
            T(put)(to, to->count++, prefix_off(from->at[i], key_len(q)), from->row[i]);
}

/* Merges from the back, so that no row is overwritten before it has moved. */
static inline void T(paste_branch)(struct TABLE *t, const struct TABLE *from, key q)
{
    T(shift_up)(t, q);
    size_t i = t->count, j = from->count;
    t->count = i + j;
    while (j > 0) {
        key next = prefix_on(from->at[j - 1], q);
        if (i > 0 && t->at[i - 1] > next) {
            i--;
            T(put)(t, i + j, t->at[i], t->row[i]);
        } else {
            j--;
            T(put)(t, i + j, next, from->row[j]);
        }
    }
}

#undef T
#undef JOIN
#undef JOIN_
#undef TABLE
#undef ROW
