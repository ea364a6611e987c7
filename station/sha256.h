/* SHA-256 (FIPS 180-4), for records. */
#ifndef TZ_SHA256_H
#define TZ_SHA256_H

#include <stddef.h>
#include <stdint.h>

#define SHA256_TEXT 65 /* 64 digits and the end */

/* The digest of `count` bytes, in lower case digits, as sha256sum prints it. */
void sha256_text(const uint8_t *bytes, size_t count, char text[SHA256_TEXT]);

#endif
