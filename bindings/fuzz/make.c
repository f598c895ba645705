// A random call of an export.
#include "lists.h"

#include <stdio.h>
#include <stdlib.h>

// One content for each list, used again by every call.
static unsigned char *contents[MOST_LISTS];

void begin_call(struct call *call, const struct export *export)
{
    if (export->all > MOST_LISTS) {
        fprintf(stderr, "%s has more lists than there is room for\n", export->name);
        exit(2);
    }
    *call = (struct call){.export = export, .all = export->all};
    for (size_t i = 0; i < export->all; i++) {
        if (contents[i] == NULL)
            contents[i] = malloc((size_t)MOST_ENTRIES * 8);
        if (contents[i] == NULL) {
            perror("malloc");
            exit(2);
        }
        call->lists[i] = export->lists[i];
        call->lists[i].content = contents[i];
        call->count += call->lists[i].rows == 0;
    }
}

void make_call(struct random *random, struct call *call, const struct export *export)
{
    begin_call(call, export);
    if (one_in(random, 30))
        make_wild(random, call);
    else
        export->make(random, call);
    for (size_t i = 0; i < call->count; i++)
        call->lists[i].empty = below(random, EMPTINESSES);
}
