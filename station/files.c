#define _XOPEN_SOURCE 700
#include "files.h"

#include <errno.h>
#include <fcntl.h>
#include <stdlib.h>
#include <unistd.h>

#include "messages.h"

/* ---- bytes in ---- */

int is_plain(const struct input *in) { return in->bytes != NULL && in->len >= 2 && in->bytes[0] == 'P' && in->bytes[1] == '2'; }

size_t bound_of(const struct input *in) { return is_plain(in) ? MOST_PLAIN_BYTES : MOST_BYTES; }

/* Doubles the room, up to one byte above the bound: that byte tells that there is more. */
static int grow(struct input *in, size_t *room)
{
    size_t wanted = *room == 0 ? 65536 : *room * 2;
    if (wanted > bound_of(in) + 1)
        wanted = bound_of(in) + 1;
    uint8_t *bigger = realloc(in->bytes, wanted);
    if (bigger == NULL)
        return 0;
    in->bytes = bigger;
    *room = wanted;
    return 1;
}

static int read_to_end(int from, const char *name, struct input *in)
{
    size_t room = 0;
    while (in->len <= bound_of(in)) {
        if (in->len == room && !grow(in, &room))
            return no_memory();
        ssize_t got = read(from, in->bytes + in->len, room - in->len);
        if (got < 0 && errno == EINTR)
            continue;
        if (got < 0)
            return fault(errno == EISDIR ? NO_INPUT : IO_FAULT, "cannot read", name);
        if (got == 0)
            return 0;
        in->len += (size_t)got;
    }
    in->cut = 1;
    return 0;
}

int read_input(const char *name, struct input *in)
{
    if (is_dash(name))
        return read_to_end(STDIN_FILENO, input_name(name), in);
    int from = open(name, O_RDONLY | O_CLOEXEC);
    if (from < 0)
        return fault(NO_INPUT, "cannot open", name);
    int code = read_to_end(from, name, in);
    close(from);
    return code;
}

/* ---- bytes out ---- */

int write_all(int to, const uint8_t *bytes, size_t count)
{
    while (count > 0) {
        ssize_t put = write(to, bytes, count);
        if (put < 0 && errno == EINTR)
            continue;
        if (put < 0)
            return 0;
        bytes += put;
        count -= (size_t)put;
    }
    return 1;
}

int close_after(int ok, int to)
{
    int why = errno;
    if (close(to) != 0 && ok) {
        ok = 0;
        why = errno;
    }
    errno = why;
    return ok;
}

int put_straight(int to, const char *name, const uint8_t *bytes, size_t count)
{
    return close_after(write_all(to, bytes, count), to) ? 0 : fault(IO_FAULT, "cannot write", name);
}

/* ---- standard streams ---- */

/* The place of a closed one is taken by something that cannot be used that way round, so that its use stays an error. */
int hold_streams(void)
{
    for (int file = 0; file <= STDERR_FILENO; file++)
        if (fcntl(file, F_GETFD) < 0 && open("/dev/null", file == STDIN_FILENO ? O_WRONLY : O_RDONLY) != file)
            return fault(IO_FAULT, "a standard stream is closed, and its place cannot be taken by", "/dev/null");
    return 0;
}
