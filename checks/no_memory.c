/* A library to be loaded before a program (LD_PRELOAD), which refuses a growth of memory: the call of malloc, calloc or
   realloc whose number, from 1, the variable REFUSE has; where REFUSE_ON is set, each one from it on. With STACK_KB set the
   stack is grown so far before the program begins, so that it needn't grow later, where the address space is limited and a stack
   that can't grow ends a program by a signal. checks/hostile.py builds it by

       cc -O2 -shared -fPIC -o no_memory.so no_memory.c

   It calls the C library of GNU by its own names. */
#include <errno.h>
#include <stddef.h>
#include <stdlib.h>

extern void *__libc_malloc(size_t size);
extern void *__libc_calloc(size_t count, size_t size);
extern void *__libc_realloc(void *old, size_t size);

static long long calls;
static long long refused = -1;
static int goes_on;

static int is_refused(void)
{
    if (refused < 0) {
        const char *number = getenv("REFUSE");
        refused = number ? atoll(number) : 0;
        goes_on = getenv("REFUSE_ON") != NULL;
    }
    calls++;
    if (refused == 0 || calls < refused || (calls > refused && !goes_on))
        return 0;
    errno = ENOMEM;
    return 1;
}

static void __attribute__((noinline)) grow_stack(long kilobytes)
{
    volatile char part[1024];
    part[0] = 1;
    if (kilobytes > 1)
        grow_stack(kilobytes - 1);
    part[1] = part[0];
}

static void __attribute__((constructor)) begin(void)
{
    const char *kilobytes = getenv("STACK_KB");
    if (kilobytes)
        grow_stack(atol(kilobytes));
}

void *malloc(size_t size)
{
    return is_refused() ? NULL : __libc_malloc(size);
}

void *calloc(size_t count, size_t size)
{
    return is_refused() ? NULL : __libc_calloc(count, size);
}

void *realloc(void *old, size_t size)
{
    return is_refused() ? NULL : __libc_realloc(old, size);
}
