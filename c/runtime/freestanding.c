// The functions that compilers call though no program names them, and the end of a program, where there is no C library.
#include <logtm.h>
#include <stdint.h>

typedef uint32_t __attribute__((may_alias)) word;

void *memcpy(void *restrict to, const void *restrict from, size_t size)
{
    char *target = to;
    const char *source = from;
    if (((uintptr_t)to | (uintptr_t)from) % sizeof(word) == 0)
        for (; size >= sizeof(word); size -= sizeof(word), target += sizeof(word), source += sizeof(word))
            *(word *)target = *(const word *)source;
    for (; size > 0; size--)
        *target++ = *source++;
    return to;
}

void *memmove(void *to, const void *from, size_t size)
{
    char *target = to;
    const char *source = from;
    if (target <= source)
        return memcpy(to, from, size);
    while (size-- > 0)
        target[size] = source[size];
    return to;
}

void *memset(void *to, int byte, size_t size)
{
    for (char *target = to; size > 0; size--)
        *target++ = byte;
    return to;
}

int memcmp(const void *one, const void *other, size_t size)
{
    const unsigned char *left = one, *right = other;
    for (; size > 0; size--, left++, right++)
        if (*left != *right)
            return *left - *right;
    return 0;
}

_Noreturn void exit(int status)
{
    logtm_exit(status);
}
