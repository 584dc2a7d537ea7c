/* Stands before the C library in a program that is started with LD_PRELOAD, and refuses it memory: of the calls of malloc and
   realloc since its start the one with the number REFUSED comes to nothing, and with REFUSED_BEHIND each one behind it too. The
   file REFUSED_NOTE is made then, so that a program that ended before so many calls is told from one that was refused. */
#include <errno.h>
#include <fcntl.h>
#include <stddef.h>
#include <stdlib.h>
#include <unistd.h>

void *__libc_malloc(size_t size);
void *__libc_realloc(void *old, size_t size);

static long number, calls;
static int behind;

__attribute__((constructor)) static void begin(void) {
    const char *text = getenv("REFUSED");
    number = text ? atol(text) : 0;
    behind = getenv("REFUSED_BEHIND") != NULL;
    calls = 0;
}

static int is_refused(void) {
    calls++;
    if (number == 0 || calls < number || (calls > number && !behind)) {
        return 0;
    }
    if (calls == number) {
        const char *note = getenv("REFUSED_NOTE");
        if (note) {
            close(creat(note, 0600));
        }
    }
    errno = ENOMEM;
    return 1;
}

void *malloc(size_t size) {
    return is_refused() ? NULL : __libc_malloc(size);
}

void *realloc(void *old, size_t size) {
    return is_refused() ? NULL : __libc_realloc(old, size);
}
