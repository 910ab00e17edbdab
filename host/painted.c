#define _GNU_SOURCE
#include "painted.h"

#include <pthread.h>
#include <stdint.h>
#include <stdio.h>
#include <stdlib.h>
#include <string.h>
#include <sys/mman.h>

enum { ROOM = 1 << 18, PAINT = 0x96 };

struct thread {
    void (*work)(void *);
    void *argument;
    uint8_t *from;
};

static void *run(void *p) {
    struct thread *t = p;
    // The stack pointer before the call: what the thread itself took lies above it.
    __asm__ volatile("mov %%rsp, %0" : "=r"(t->from));
    t->work(t->argument);
    return NULL;
}

static void stop(const char *what) {
    fprintf(stderr, "painted: %s\n", what);
    exit(2);
}

size_t painted_depth(void (*work)(void *), void *argument) {
    uint8_t *stack = mmap(NULL, ROOM, PROT_READ | PROT_WRITE, MAP_PRIVATE | MAP_ANONYMOUS, -1, 0);
    if (stack == MAP_FAILED) stop("no memory");
    memset(stack, PAINT, ROOM);
    struct thread t = {work, argument, NULL};
    pthread_attr_t attributes;
    pthread_t thread;
    if (pthread_attr_init(&attributes) != 0 || pthread_attr_setstack(&attributes, stack, ROOM) != 0 ||
        pthread_create(&thread, &attributes, run, &t) != 0 || pthread_join(thread, NULL) != 0)
        stop("no thread");
    pthread_attr_destroy(&attributes);
    uint8_t *lowest = stack;
    while (lowest < t.from && *lowest == PAINT) lowest++;
    size_t depth = (size_t)(t.from - lowest);
    munmap(stack, ROOM);
    return depth;
}
