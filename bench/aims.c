#include "aims.h"

#include <stddef.h>
#include <stdio.h>

enum { MOST = 64 };

static struct {
    char row[96];
    double aim, measured;
} noted[MOST];
static size_t count;

void aim_note(const char *row, double aim, double measured)
{
    if (aim == 0 || count == MOST)
        return;
    snprintf(noted[count].row, sizeof noted[count].row, "%s", row);
    noted[count].aim = aim;
    noted[count].measured = measured;
    count++;
}

void aims_table(void)
{
    printf("\n### Aims\n\nA ratio, or nanoseconds a pixel where it is said; reached where it is not above the aim.\n\n");
    printf("| row | measured | aim | |\n|---|---|---|---|\n");
    for (size_t i = 0; i < count; i++)
        printf("| %-62s | %8.2f | %8.2f | %s |\n", noted[i].row, noted[i].measured, noted[i].aim,
               noted[i].measured < noted[i].aim + 0.005 ? "reached" : "not reached");
}
