/* Signals that ask this program to stop: what it was making is removed first, and its processes are ended. */
#ifndef TZ_SIGNALS_H
#define TZ_SIGNALS_H

/* As many files are made at once as a film has outputs. */
#define MOST_REMOVED 2

/* As many processes of our own run at once, at the most. */
#define MOST_CHILDREN 64

void watch_signals(void);

/* From now on this file is removed when a signal asks this program to stop; null: none is any more. */
void remove_on_stop(int which, char *name);
int stays_to_be_removed(int which);

/* From now on this process is ended too; 0: none is any more. */
void end_on_stop(int which, int process);

/* In a process of our own: what the one before it was making and had started is not its to remove or end. */
void forget_on_stop(void);

/* No such signal is heeded between these two. errno is kept. */
void hold_signals(void);
void heed_signals(void);

#endif
