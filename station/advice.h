/* Warnings: what a rendering was made with that hides a film's greys, and the words to type instead. */
#ifndef TZ_ADVICE_H
#define TZ_ADVICE_H

#include "run.h"

/* Warns behind a rendering where the film's greys fill less than a quarter of the range, where fewer of them occur than
   half the bins, and where the factor used is more than a tenth off the one asked. */
void advise(const struct run *run);

#endif
