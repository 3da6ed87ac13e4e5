/* Refuses one allocation of a program, the one whose number REFUSE has, and writes to the file REFUSE_COUNT how many it made.
   cc -shared -fPIC -O2 -o refuse.so refuse.c -ldl; LD_PRELOAD=refuse.so */
#define _GNU_SOURCE
#include <dlfcn.h>
#include <fcntl.h>
#include <stdio.h>
#include <stdlib.h>
#include <string.h>
#include <unistd.h>

static unsigned long made, refused_at;
static int counting;

static int refuses(void) { return counting && ++made == refused_at; }

__attribute__((constructor)) static void begin(void) {
    const char *number = getenv("REFUSE");
    refused_at = number ? strtoul(number, NULL, 10) : 0;
    counting = 1;
}

__attribute__((destructor)) static void end(void) {
    const char *path = getenv("REFUSE_COUNT");
    char text[32];
    int file;
    counting = 0;
    if (path && (file = open(path, O_WRONLY | O_CREAT | O_TRUNC, 0600)) >= 0) {
        int length = snprintf(text, sizeof text, "%lu", made);
        if (write(file, text, length) != length) _exit(99);
        close(file);
    }
}

void *malloc(size_t size) {
    static void *(*next)(size_t);
    if (!next) next = (void *(*)(size_t))dlsym(RTLD_NEXT, "malloc");
    return refuses() ? NULL : next(size);
}

void *realloc(void *old, size_t size) {
    static void *(*next)(void *, size_t);
    if (!next) next = (void *(*)(void *, size_t))dlsym(RTLD_NEXT, "realloc");
    return refuses() ? NULL : next(old, size);
}
