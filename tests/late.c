/* For LD_PRELOAD: the thread that a program starts as number LATE, from 0, comes to run 0.3 s late, and says so. On a busy machine any may.
   cc -shared -fPIC -o late.so tests/late.c -ldl */
#define _GNU_SOURCE
#include <dlfcn.h>
#include <pthread.h>
#include <stdio.h>
#include <stdlib.h>
#include <time.h>

struct thread {
    void *(*run)(void *);
    void *argument;
};

static void *run_late(void *made) {
    struct thread thread = *(struct thread *)made;
    free(made);
    fputs("late\n", stderr);
    nanosleep(&(struct timespec){.tv_nsec = 300000000}, NULL);
    return thread.run(thread.argument);
}

int pthread_create(pthread_t *id, const pthread_attr_t *attributes, void *(*run)(void *), void *argument) {
    static int started; /* by one thread in these programs */
    int (*create)(pthread_t *, const pthread_attr_t *, void *(*)(void *), void *);
    *(void **)&create = dlsym(RTLD_NEXT, "pthread_create");
    const char *late = getenv("LATE");
    struct thread *thread = malloc(sizeof *thread);
    if (late == NULL || thread == NULL)
        abort();
    if (started++ != atoi(late)) {
        free(thread);
        return create(id, attributes, run, argument);
    }
    *thread = (struct thread){run, argument};
    return create(id, attributes, run_late, thread);
}
