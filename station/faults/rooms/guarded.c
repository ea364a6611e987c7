#include "guarded.h"

#include "calls.h"

/* Of the C library, as Linux has it on x86-64 and aarch64. */
void *mmap(void *at, size_t bytes, int may, int how, int file, long from);
int mprotect(void *at, size_t bytes, int may);
int munmap(void *at, size_t bytes);
#define PROT_NONE 0
#define PROT_READ 1
#define PROT_WRITE 2
#define MAP_PRIVATE 2
#define MAP_ANONYMOUS 32

#define PAGE 65536u /* the largest page that either machine has */

static void permit(const struct lent *lent, int may)
{
    if (lent->inside > 0 && mprotect(lent->pages + PAGE, lent->inside, may) != 0)
        fault("pages cannot be guarded", lent->inside);
}

struct lent lend(size_t bytes, enum side side)
{
    struct lent lent;
    lent.inside = (bytes + PAGE - 1) / PAGE * PAGE;
    lent.all = lent.inside + 2 * PAGE;
    lent.pages = mmap(NULL, lent.all, PROT_NONE, MAP_PRIVATE | MAP_ANONYMOUS, -1, 0);
    if (lent.pages == (uint8_t *)-1)
        fault("no memory", lent.all);
    permit(&lent, PROT_READ | PROT_WRITE);
    lent.at = lent.pages + PAGE + (side == AT_END ? lent.inside - bytes : 0);
    return lent;
}

void give_back(struct lent *lent)
{
    if (munmap(lent->pages, lent->all) != 0)
        fault("memory cannot be given back", lent->all);
}

void lock_lent(const struct lent *lent) { permit(lent, PROT_READ); }

void unlock_lent(const struct lent *lent) { permit(lent, PROT_READ | PROT_WRITE); }
