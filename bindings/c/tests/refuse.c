/* refuse SCRIPT..: each request for memory of each call is refused in turn, of those that tell of a run of the first three, and with the last script
   of all. Then the answer is MAINCTX_MEMORY, or what it would have been where the call can do without; and no block is left taken. Linked with -Wl,--wrap=malloc,--wrap=realloc,--wrap=free. */
#include "common.h"
#include <stdio.h>
#include <stdlib.h>
#include <string.h>

void *__real_malloc(size_t size);
void *__real_realloc(void *block, size_t size);
void __real_free(void *block);
void *__wrap_malloc(size_t size);
void *__wrap_realloc(void *block, size_t size);
void __wrap_free(void *block);

static size_t asked, refused_at, held;

void *__wrap_malloc(size_t size) {
    if (++asked == refused_at) return NULL;
    held++;
    return __real_malloc(size);
}

void *__wrap_realloc(void *block, size_t size) {
    if (++asked == refused_at) return NULL;
    return __real_realloc(block, size);
}

void __wrap_free(void *block) {
    if (block != NULL) held--;
    __real_free(block);
}

struct outcome {
    uint32_t answer;
    struct bytes text;
};

/* a call with a room, in which one request is refused; 0 refuses none */
static struct outcome called(struct call call, struct bytes script, struct bytes room, size_t refuse) {
    struct outcome outcome = {.text.at = room.at};
    size_t before = held;
    asked = 0;
    refused_at = refuse;
    outcome.answer = call.function(script.at, script.size, room.at, room.size, &outcome.text.size);
    refused_at = 0;
    if (held != before) wrong("request %zu: %zu blocks are left", refuse, held - before);
    return outcome;
}

static size_t refuse_each(struct call call, const char *path) {
    struct bytes script = file(path), wanted = {NULL, 0}, room;
    size_t memory = 0, requests;
    uint32_t answer = call.function(script.at, script.size, (uint8_t[1]){0}, 0, &wanted.size);
    room = (struct bytes){malloc(wanted.size + 1), wanted.size};
    if (answer == MAINCTX_SHORT_ROOM) wanted = text_of(call, script);
    answer = called(call, script, room, 0).answer;
    requests = asked;
    for (size_t refuse = 1; refuse <= requests; refuse++) {
        struct outcome got = called(call, script, room, refuse);
        if (got.answer == MAINCTX_MEMORY) {
            if (got.text.size != 0) wrong("%s: request %zu: %zu are needed", path, refuse, got.text.size);
            memory++;
        } else if (got.answer != answer) {
            wrong("%s: request %zu: %u", path, refuse, (unsigned)got.answer);
        } else if (answer == call.whole) {
            same(path, got.text, wanted);
        }
    }
    if (memory == 0) wrong("%s: no refusal ended the call", path);
    free(script.at);
    free(room.at);
    free(wanted.at);
    return requests;
}

enum { FEW = 3 };

int main(int count, char **words) {
    size_t requests = 0;
    const struct call calls[] = {RUN, TRANSLATE, CHECK};
    for (int word = 1; word < count; word++) {
        for (size_t call = 0; call < sizeof calls / sizeof *calls; call++) requests += refuse_each(calls[call], words[word]);
        size_t telling = word == count - 1 ? TELLING_COUNT : FEW;
        for (size_t call = 0; call < telling; call++) requests += refuse_each(TELLING[call], words[word]);
    }
    printf("%zu requests refused\n", requests);
    return 0;
}
