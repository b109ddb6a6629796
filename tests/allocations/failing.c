// A library to be loaded in front of a program: its FAIL_AT-th allocation fails, counted from 1, a growth among them. TOLD_IN names a file
// that is made where that happened.
#include <errno.h>
#include <fcntl.h>
#include <stdlib.h>
#include <unistd.h>

extern void *__libc_malloc(size_t size);
extern void *__libc_realloc(void *old, size_t size);

static long calls = 0;

static int fails(void)
{
    const char *at = getenv("FAIL_AT");
    const char *told = getenv("TOLD_IN");
    if (at == NULL || ++calls != atol(at))
        return 0;
    if (told != NULL)
        close(open(told, O_CREAT | O_WRONLY, 0600));
    errno = ENOMEM;
    return 1;
}

void *malloc(size_t size)
{
    return fails() ? NULL : __libc_malloc(size);
}

void *realloc(void *old, size_t size)
{
    return fails() ? NULL : __libc_realloc(old, size);
}
