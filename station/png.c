#include "png.h"

#include <stdlib.h>
#include <string.h>

/* What is stored and not packed stands in blocks of at most so many bytes. */
#define MOST_STORED 65535u

/* Bytes that are laid down one behind the other. */
struct bytes {
    uint8_t *at;
    size_t count;
};

static void put(struct bytes *b, uint8_t byte) { b->at[b->count++] = byte; }

static void put32(struct bytes *b, uint32_t number)
{
    for (int shift = 24; shift >= 0; shift -= 8)
        put(b, (uint8_t)(number >> shift));
}

/* ---- sums ---- */

static uint32_t crc32(const uint8_t *at, size_t count)
{
    uint32_t table[256], sum = 0xffffffffu;
    for (uint32_t i = 0; i < 256; i++) {
        table[i] = i;
        for (int k = 0; k < 8; k++)
            table[i] = (table[i] & 1) != 0 ? 0xedb88320u ^ table[i] >> 1 : table[i] >> 1;
    }
    for (size_t i = 0; i < count; i++)
        sum = table[(sum ^ at[i]) & 0xff] ^ sum >> 8;
    return ~sum;
}

static uint32_t adler32(const uint8_t *at, size_t count)
{
    uint32_t low = 1, high = 0;
    for (size_t i = 0; i < count; i++) {
        low = (low + at[i]) % 65521;
        high = (high + low) % 65521;
    }
    return high << 16 | low;
}

/* ---- chunks ---- */

/* A chunk is begun with its kind, filled, and ended: its length goes to the front, its sum to the end. */
static size_t begin_chunk(struct bytes *b, const char *kind)
{
    size_t start = b->count;
    put32(b, 0);
    for (int i = 0; i < 4; i++)
        put(b, (uint8_t)kind[i]);
    return start;
}

static void end_chunk(struct bytes *b, size_t start)
{
    struct bytes front = {b->at + start, 0};
    put32(&front, (uint32_t)(b->count - start - 8));
    put32(b, crc32(b->at + start + 4, b->count - start - 4));
}

static void put_header(struct bytes *b, const tz_sizes *sizes, int bits)
{
    size_t start = begin_chunk(b, "IHDR");
    put32(b, sizes->width);
    put32(b, sizes->height);
    put(b, (uint8_t)bits);
    for (int i = 0; i < 4; i++) /* grey; the one packing, the one filtering, no interlacing */
        put(b, 0);
    end_chunk(b, start);
}

/* ---- the picture ---- */

/* The rows, a 0 before each, which says that no filter was used. */
static void put_rows(struct bytes *rows, const uint16_t *picture, const tz_sizes *sizes, int bits)
{
    uint32_t top = bits == 8 ? 255 : 65535;
    for (uint32_t y = 0; y < sizes->height; y++) {
        put(rows, 0);
        for (uint32_t x = 0; x < sizes->width; x++) {
            uint32_t grey = *picture++ * top / sizes->maxval;
            if (bits == 16)
                put(rows, (uint8_t)(grey >> 8));
            put(rows, (uint8_t)grey);
        }
    }
}

/* Stored as they are: packing would want a packer, which no film needs. */
static void put_stored(struct bytes *b, const struct bytes *rows)
{
    size_t start = begin_chunk(b, "IDAT");
    put(b, 0x78);
    put(b, 0x01);
    for (size_t from = 0; from < rows->count; from += MOST_STORED) {
        size_t left = rows->count - from, length = left < MOST_STORED ? left : MOST_STORED;
        put(b, left <= MOST_STORED); /* the last block? */
        put(b, (uint8_t)length);
        put(b, (uint8_t)(length >> 8));
        put(b, (uint8_t)~length);
        put(b, (uint8_t)(~length >> 8));
        memcpy(b->at + b->count, rows->at + from, length);
        b->count += length;
    }
    put32(b, adler32(rows->at, rows->count));
    end_chunk(b, start);
}

uint8_t *png_of(const uint16_t *picture, const tz_sizes *sizes, size_t *count)
{
    static const char mark[] = "\x89PNG\r\n\x1a\n";
    int bits = sizes->maxval <= 255 ? 8 : 16;
    size_t raw = (size_t)sizes->height * (1 + (size_t)sizes->width * (bits == 8 ? 1 : 2));
    struct bytes rows = {malloc(raw), 0}, b = {malloc(raw + 5 * (raw / MOST_STORED + 1) + 128), 0};
    if (rows.at != NULL && b.at != NULL) {
        for (int i = 0; i < 8; i++)
            put(&b, (uint8_t)mark[i]);
        put_header(&b, sizes, bits);
        put_rows(&rows, picture, sizes, bits);
        put_stored(&b, &rows);
        end_chunk(&b, begin_chunk(&b, "IEND"));
    } else {
        free(b.at);
        b.at = NULL;
    }
    free(rows.at);
    *count = b.count;
    return b.at;
}
