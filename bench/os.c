/* The C code that the kit's library os calls, for processors that the kit has it not for: the words that the program was started with,
 * files opened, errno. What each call does is said in the kit's libs/os/src/c.rt. For bench/build --native alone. */
#include <errno.h>
#include <fcntl.h>
#include <stddef.h>
#include <stdint.h>
#include <sys/types.h>

int rattle_open_to_read(const uint8_t *path);
int rattle_open_new(const uint8_t *path, uint32_t mode);
int rattle_open_to_overwrite(const uint8_t *path, uint32_t mode);
int rattle_open_to_append(const uint8_t *path);
int rattle_open_to_update(const uint8_t *path);
int rattle_errno(void);
void rattle_set_errno(int error);
size_t rattle_arg_count(void);
ssize_t rattle_arg(size_t i, uint8_t *buf, size_t len);

static int count;
static char **words;

__attribute__((constructor)) static void keep(int argc, char **argv)
{
    count = argc;
    words = argv;
}

size_t rattle_arg_count(void) { return (size_t)count; }

ssize_t rattle_arg(size_t i, uint8_t *buf, size_t len)
{
    size_t n = 0;
    if (i >= (size_t)count || words[i] == NULL)
        return -1;
    for (; words[i][n] != 0; n++) {
        if (n == len)
            return -2;
        buf[n] = (uint8_t)words[i][n];
    }
    return (ssize_t)n;
}

static int opened(const uint8_t *path, int how, uint32_t mode) { return open((const char *)path, how | O_NOCTTY | O_CLOEXEC, mode); }

int rattle_open_to_read(const uint8_t *path) { return opened(path, O_RDONLY, 0); }
int rattle_open_new(const uint8_t *path, uint32_t mode) { return opened(path, O_WRONLY | O_CREAT | O_EXCL, mode); }
int rattle_open_to_overwrite(const uint8_t *path, uint32_t mode) { return opened(path, O_WRONLY | O_CREAT | O_TRUNC, mode); }
int rattle_open_to_append(const uint8_t *path) { return opened(path, O_WRONLY | O_APPEND, 0); }
int rattle_open_to_update(const uint8_t *path) { return opened(path, O_RDWR, 0); }
int rattle_errno(void) { return errno; }
void rattle_set_errno(int error) { errno = error; }
