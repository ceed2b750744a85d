/* Records of 40 bytes from and to tables. */
#ifndef PLAIN_IMAGE_H
#define PLAIN_IMAGE_H

#include <stdbool.h>

#include "plain.h"

/* Fills d from an image; false, with the bad record's number, if the image is bad. d is then left in part filled. */
bool read_image(struct dossier *d, const uint8_t *image, size_t len, size_t *record);

/* The same for a branch of nodes and attributes, which all go to the owner; a permission is a bad record. */
bool read_branch(struct dossier *d, const uint8_t *image, size_t len, uint8_t owner, size_t *record);

size_t image_bytes(const struct dossier *d);

/* Writes image_bytes(d) bytes. */
void write_image(const struct dossier *d, uint8_t *out);

void put32(uint8_t *out, uint32_t n);

#endif
