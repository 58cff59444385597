/* threads SCRIPT..: eight threads at once run each script again and again; each text is that of a run alone. */
#define _POSIX_C_SOURCE 200809L
#include "common.h"
#include <pthread.h>
#include <stdio.h>
#include <stdlib.h>

enum { THREADS = 8, ROUNDS = 200, SCRIPTS_MOST = 64 };

static struct task {
    const char *path;
    struct bytes script, text;
} tasks[SCRIPTS_MOST];
static int tasks_count;
static pthread_barrier_t begin;

/* all scripts, from another one on in each thread */
static void *rounds(void *first) {
    pthread_barrier_wait(&begin);
    for (int round = 0; round < ROUNDS * tasks_count; round++) {
        struct task *task = &tasks[(*(int *)first + round) % tasks_count];
        struct bytes text = text_of(RUN, task->script);
        same(task->path, text, task->text);
        free(text.at);
    }
    return NULL;
}

int main(int count, char **words) {
    pthread_t threads[THREADS];
    int first[THREADS];
    if (count < 2 || count - 1 > SCRIPTS_MOST) wrong("usage: threads SCRIPT..");
    for (tasks_count = 0; tasks_count < count - 1; tasks_count++) {
        struct bytes script = file(words[tasks_count + 1]);
        tasks[tasks_count] = (struct task){words[tasks_count + 1], script, text_of(RUN, script)};
    }
    pthread_barrier_init(&begin, NULL, THREADS);
    for (int thread = 0; thread < THREADS; thread++) {
        first[thread] = thread;
        if (pthread_create(&threads[thread], NULL, rounds, &first[thread]) != 0) wrong("no thread");
    }
    for (int thread = 0; thread < THREADS; thread++) pthread_join(threads[thread], NULL);
    for (int task = 0; task < tasks_count; task++) {
        free(tasks[task].script.at);
        free(tasks[task].text.at);
    }
    return 0;
}
