/* malloc, calloc and realloc in which some calls fail. */
#include "refuse_malloc.h"

void *__real_malloc(size_t size);
void *__real_calloc(size_t count, size_t size);
void *__real_realloc(void *block, size_t size);
void *__wrap_malloc(size_t size);
void *__wrap_calloc(size_t count, size_t size);
void *__wrap_realloc(void *block, size_t size);

static long left = 0;
static bool all = false, met = false;

void refuse_at(long call)
{
    left = call;
    all = met = false;
}

void refuse_all(void)
{
    refuse_at(0);
    all = true;
}

bool was_refused(void)
{
    return met;
}

static bool refuses(void)
{
    bool refused = all || (left > 0 && --left == 0);
    met |= refused;
    return refused;
}

void *__wrap_malloc(size_t size)
{
    return refuses() ? NULL : __real_malloc(size);
}

void *__wrap_calloc(size_t count, size_t size)
{
    return refuses() ? NULL : __real_calloc(count, size);
}

void *__wrap_realloc(void *block, size_t size)
{
    return refuses() ? NULL : __real_realloc(block, size);
}
