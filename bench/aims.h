/* What the rows are to reach, noted while the tables are measured and printed as one table behind them. */
#ifndef AIMS_H
#define AIMS_H

/* Notes a row, what it is to be at most, and what was measured. A row without an aim is 0 and not noted. */
void aim_note(const char *row, double aim, double measured);

void aims_table(void);

#endif
