#include "list.h"

#include <string.h>

static size_t entries_of(const struct film *f) { return tz_map_entries(&f->settings); }

struct film *film_of(const struct list *l, uint32_t number)
{
    for (uint32_t i = 0; i < l->count; i++)
        if (l->films[i]->number == number)
            return l->films[i];
    return NULL;
}

size_t taken(const struct list *l)
{
    size_t sum = 0;
    for (uint32_t i = 0; i < l->count; i++)
        sum += entries_of(l->films[i]);
    return sum;
}

/* What is kept of settings: the bins that are meant, and 0 where a factor does not count. */
static tz_settings kept(const tz_settings *s)
{
    tz_settings k = *s;
    k.bins = tz_bins_of(s);
    k.clip = s->clip != 0;
    k.factor = s->clip != 0 ? s->factor : 0.0f;
    k.edition = s->edition != 0;
    return k;
}

void list_add(struct list *l, struct film *f)
{
    size_t from = taken(l);
    memcpy(l->buffer + from, f->map, 2 * (l->entries - from));
    l->room.sets[l->count] = (tz_set){f->number, f->width, f->height, kept(&f->settings)};
    l->films[l->count++] = f;
    l->room.count = l->count;
}

void list_remove(struct list *l, struct film *f)
{
    size_t from = 0, end = taken(l);
    uint32_t place = 0;
    for (; l->films[place] != f; place++)
        from += entries_of(l->films[place]);
    size_t behind = from + entries_of(f);
    memmove(l->buffer + from, l->buffer + behind, 2 * (end - behind));
    l->count--;
    for (uint32_t i = place; i < l->count; i++) {
        l->films[i] = l->films[i + 1];
        l->room.sets[i] = l->room.sets[i + 1];
    }
    l->room.count = l->count;
}
