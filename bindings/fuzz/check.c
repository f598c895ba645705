#include "check.h"

#include <string.h>

// Whether the bytes from one place to another are those that were lent.
static bool kept(const struct list *list, const struct lent *lent, size_t i, size_t from, size_t to)
{
    const unsigned char *now = lent->list[i], *then = list->content;
    if (from >= to)
        return true;
    if (list->role == READ || list->role == KEEP || lent->state == AS_MADE)
        return memcmp(now + from, then + from, to - from) == 0;
    for (size_t k = from; k < to && lent->manner != BLOCKS; k++)
        if ((now[k] ^ then[k]) != 0xFF)
            return false;
    return true;
}

size_t changed_list(const struct call *call, const struct lent *lent, bool refused)
{
    for (size_t i = 0; i < call->all; i++) {
        const struct list *list = &call->lists[i];
        size_t whole = list->length * list->width, from = list->from * list->width, used = list->used * list->width;
        if (list->role == WORK && !refused)
            continue;
        if (refused || used == 0)
            from = whole;
        if (!kept(list, lent, i, 0, from) || !kept(list, lent, i, from + used, whole))
            return i;
    }
    return call->all;
}

size_t unlike_list(const struct call *call, const struct lent *one, const struct lent *other)
{
    for (size_t i = 0; i < call->count; i++) {
        const struct list *list = &call->lists[i];
        bool whole = one->state == other->state;
        size_t from = whole ? 0 : list->from * list->width, size = (whole ? list->length : list->used) * list->width;
        if (size > 0 && memcmp(one->list[i] + from, other->list[i] + from, size) != 0)
            return i;
    }
    return call->all;
}

bool same_answer(const struct answer *one, const struct answer *other)
{
    return one->number == other->number && one->place == other->place && one->count == other->count
        && memcmp(one->numbers, other->numbers, one->count * sizeof *one->numbers) == 0;
}
