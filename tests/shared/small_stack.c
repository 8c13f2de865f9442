#include "small_stack.h"

#include <pthread.h>
#include <stdio.h>

struct run {
    bool (*as_expected)(void);
    bool was;
};

static void *run_it(void *given)
{
    struct run *run = given;
    run->was = run->as_expected();
    return NULL;
}

bool on_small_stack(const char *what, size_t kib, bool (*as_expected)(void))
{
    pthread_attr_t attributes;
    pthread_t thread;
    struct run run = {as_expected, false};
    if (pthread_attr_init(&attributes) != 0 || pthread_attr_setstacksize(&attributes, kib * 1024) != 0 ||
        pthread_create(&thread, &attributes, run_it, &run) != 0) {
        printf("%s: there is no thread with a %zu KiB stack\n", what, kib);
        return false;
    }
    pthread_join(thread, NULL);
    printf("%s on a %zu KiB stack: %s\n", what, kib, run.was ? "as expected" : "NOT as expected");
    return run.was;
}
