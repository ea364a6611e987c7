/* What help prints. */
#ifndef TZ_USAGE_H
#define TZ_USAGE_H

extern const char usage[];

#endif
