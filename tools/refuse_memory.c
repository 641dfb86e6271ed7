/* Refuses one call for memory of the program that this is loaded into: the one whose number, from 1, is in REFUSE_AT. At its
   end the program leaves the number of its calls in the file that COUNT_TO names. Calls that free memory aren't counted. */
#include <fcntl.h>
#include <stdio.h>
#include <stdlib.h>
#include <string.h>
#include <sys/syscall.h>
#include <unistd.h>

extern void *__libc_malloc(size_t size);
extern void *__libc_realloc(void *block, size_t size);

static long calls, refused = -1;

static int is_refused(void) {
    if (refused < 0) {
        const char *at = getenv("REFUSE_AT");
        refused = at ? atol(at) : 0;
    }
    calls += 1;
    return calls == refused;
}

void *malloc(size_t size) { return is_refused() ? NULL : __libc_malloc(size); }

void *realloc(void *block, size_t size) { return is_refused() ? NULL : __libc_realloc(block, size); }

__attribute__((destructor)) static void tell(void) {
    const char *path = getenv("COUNT_TO");
    char text[32];
    int file = path ? open(path, O_WRONLY | O_CREAT | O_TRUNC, 0600) : -1;
    if (file >= 0) {
        snprintf(text, sizeof text, "%ld", calls);
        if (write(file, text, strlen(text)) < 0) syscall(SYS_exit_group, 1);
        close(file);
    }
}

/* A program that ends so runs no destructor. */
void _exit(int status) {
    tell();
    for (;;) syscall(SYS_exit_group, status);
}
