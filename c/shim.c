/* The plain C under the name of the proved call: the tests of this folder are tried against it, and against each other. */
#include "dossier_ask.h"
#include "plain.h"

uint32_t dossier_ask(const uint8_t *image, size_t image_len, uint8_t role, uint8_t user, int64_t time, uint8_t len,
                     uint8_t s1, uint8_t s2, uint8_t s3, uint8_t s4, uint8_t s5, uint8_t s6, uint16_t name,
                     uint8_t action, uint8_t *out, size_t out_len)
{
    struct path path = {len, {s1, s2, s3, s4, s5, s6}};
    return (uint32_t)plain_ask(image, image_len, role, user, time, &path, name, action, out, out_len);
}
