/*
 * loaded LIBRARY: loads the shared library by its name, as other languages do, and prints its version and the tile listing of
 * the film of 4 by 4 pixels whose listing the rules give.
 */
#include <stddef.h>
#include <stdint.h>
#include <stdio.h>

void *dlopen(const char *path, int how);
void *dlsym(void *library, const char *name);
#define RTLD_NOW 2

typedef const char *(*version_call)(void);
typedef uint32_t (*listing_call)(const uint8_t *bytes, size_t len, uint8_t *out, size_t out_len, size_t *count);

int main(int argc, char **argv)
{
    static const uint8_t film[] = "P5\n4 4\n15\n\0\0\0\4\0\0\10\14\17\17\0\0\17\17\17\17";
    uint8_t text[512];
    size_t count = 0;
    void *library = argc == 2 ? dlopen(argv[1], RTLD_NOW) : NULL;
    if (library == NULL)
        return 1;
    version_call version = (version_call)dlsym(library, "tz_version");
    listing_call listing = (listing_call)dlsym(library, "tzofnadir_listing");
    if (version == NULL || listing == NULL || listing(film, sizeof film - 1, text, sizeof text, &count) != 0)
        return 2;
    printf("%s\n%.*s", version(), (int)count, (const char *)text);
    return 0;
}
