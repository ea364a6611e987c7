/* New files beside the places of outputs, `.tzofnadir-PROCESS-N.part`. Each is locked while its process works on it, so
   that what a process left behind that was killed can be told and cleared. */
#ifndef TZ_PARTS_H
#define TZ_PARTS_H

/* Makes a new file beside `path`, opens it at `to`, and gives its name, to be freed; null where it cannot, errno says why.
   From then on it is removed when a signal asks this program to stop. */
char *make_part(int which, const char *path, unsigned mode, int *to);

/* Keeps what stands at `path` under another name beside it, to be freed; null where it cannot. */
char *keep_aside(const char *path);

/* Removes the new files in the folder of `path` that no process holds any more. */
void clear_parts(const char *path);

#endif
