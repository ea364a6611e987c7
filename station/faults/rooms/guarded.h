/* Memory between pages that may not be touched: who reads or writes before or behind it is ended by a signal. */
#ifndef GUARDED_H
#define GUARDED_H

#include <stddef.h>
#include <stdint.h>

/* Against which of the two pages the memory lies. */
enum side { AT_START, AT_END, SIDES };

struct lent {
    void *at; /* never null; of no bytes it lies in a page that may not be touched, or before one */
    uint8_t *pages;
    size_t inside, all;
};

struct lent lend(size_t bytes, enum side side);
void give_back(struct lent *lent);

/* From now on writing ends the program too, whatever is written; and no longer. */
void lock_lent(const struct lent *lent);
void unlock_lent(const struct lent *lent);

#endif
