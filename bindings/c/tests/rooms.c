/* rooms SCRIPT TEXT FAULTY NAMED: a room of each length from none to more than the text's, than what mainctx_check tells of FAULTY, and than what
   the other calls tell of SCRIPT and of NAMED, a script with names. Behind the script and behind each room lies a page that
   may not be touched, and where the room is longer than the text its rest has to stay. */
#define _DEFAULT_SOURCE
#include "common.h"
#include <stdio.h>
#include <stdlib.h>
#include <string.h>
#include <sys/mman.h>
#include <unistd.h>

enum { LONGER = 100, FILLED = 0xa5 };

/* how a script with names begins */
#define FORM "{\"form\":\"names\","

/* memory for so many bytes that ends where a page that may not be touched begins */
static uint8_t *before_the_end(size_t size) {
    size_t page = (size_t)sysconf(_SC_PAGESIZE), whole = (size + page - 1) / page * page;
    uint8_t *at = mmap(NULL, whole + page, PROT_READ | PROT_WRITE, MAP_PRIVATE | MAP_ANONYMOUS, -1, 0);
    if (at == MAP_FAILED || mprotect(at + whole, page, PROT_NONE) != 0) wrong("no memory");
    return at + whole;
}

static void try_room(struct call call, struct bytes script, struct bytes text, uint8_t *end, size_t size) {
    uint8_t *room = end - size;
    size_t needed = SIZE_MAX, taken = size < text.size ? size : text.size;
    memset(room, FILLED, size);
    uint32_t answer = call.function(script.at, script.size, room, size, &needed);
    if (answer != (size < text.size ? MAINCTX_SHORT_ROOM : call.whole)) wrong("a room of %zu: %u", size, (unsigned)answer);
    if (needed != text.size) wrong("a room of %zu: %zu are needed", size, needed);
    if (memcmp(room, text.at, taken) != 0) wrong("a room of %zu has another text", size);
    for (size_t at = taken; at < size; at++)
        if (room[at] != FILLED) wrong("a room of %zu: byte %zu, behind the text, was changed", size, at);
}

/* a room of each length, for a call whose text is known */
static void try_rooms(struct call call, struct bytes read, struct bytes text) {
    struct bytes script = {before_the_end(read.size) - read.size, read.size};
    memcpy(script.at, read.at, read.size);
    uint8_t *end = before_the_end(text.size + LONGER);
    for (size_t size = 0; size <= text.size + LONGER; size++) try_room(call, script, text, end, size);
    if (memcmp(script.at, read.at, read.size) != 0) wrong("the script was changed");
}

/* a call that leaves no text leaves its room as it was, whatever its length */
static void try_none(library_function *function, const char *script, uint32_t wanted) {
    uint8_t *end = before_the_end(LONGER);
    for (size_t size = 0; size <= LONGER; size++) {
        size_t needed = SIZE_MAX;
        memset(end - size, FILLED, size);
        uint32_t answer = function((const uint8_t *)script, strlen(script), end - size, size, &needed);
        if (answer != wanted || needed != 0) wrong("%s: %u, and %zu are needed", script, (unsigned)answer, needed);
        for (size_t at = 0; at < size; at++)
            if (end[(ptrdiff_t)at - (ptrdiff_t)size] != FILLED) wrong("%s: the room was changed", script);
    }
}

/* the same where the text is told by a first call */
static void try_told(struct call call, struct bytes script) {
    struct bytes told = text_of(call, script);
    try_rooms(call, script, told);
    free(told.at);
}

/* so of each call that tells of a run */
static void try_each(struct bytes script) {
    for (size_t call = 0; call < TELLING_COUNT; call++) try_told(TELLING[call], script);
}

/* a moment that no run has: nothing is told */
static void try_nowhere(struct bytes script) {
    uint8_t room[1] = {FILLED};
    size_t needed = SIZE_MAX;
    uint32_t answer = mainctx_stack(script.at, script.size, UINT32_MAX, 0, MAINCTX_END_OF_TURN, room, sizeof room, &needed);
    if (answer != MAINCTX_TEXT || needed != 0 || room[0] != FILLED) wrong("no such thread: %u, and %zu are needed", (unsigned)answer, needed);
}

int main(int count, char **words) {
    if (mainctx_version() != MAINCTX_VERSION) wrong("it is version %u", (unsigned)mainctx_version());
    if (count != 5) wrong("usage: rooms SCRIPT TEXT FAULTY NAMED");
    struct bytes script = file(words[1]), text = file(words[2]), faulty = file(words[3]), faults = text_of(CHECK, faulty);
    struct bytes named = file(words[4]);
    try_rooms(RUN, script, text);
    try_rooms(CHECK, faulty, faults);
    try_rooms(TRANSLATE, script, script);
    try_told(TRANSLATE, named);
    try_each(script);
    try_each(named);
    try_nowhere(script);
    try_none(mainctx_translate, "", MAINCTX_NOT_JSON);
    try_none(mainctx_translate, "{}", MAINCTX_SHAPE);
    try_none(mainctx_translate, FORM "\"ticks\":1,\"threads\":{\"t\":{\"start\":[{\"iterate\":\"u\"}]}}}", MAINCTX_SHAPE);
    try_none(mainctx_translate, FORM "\"ticks\":0,\"threads\":{\"t\":{\"start\":[]}}}", MAINCTX_LIMIT);
    for (size_t call = 0; call < TELLING_COUNT; call++) {
        try_none(TELLING[call].function, FORM "\"ticks\":0,\"threads\":{\"t\":{\"start\":[]}}}", MAINCTX_LIMIT);
        try_none(TELLING[call].function, "{}", MAINCTX_SHAPE);
        try_none(TELLING[call].function, "", MAINCTX_NOT_JSON);
    }
    try_none(mainctx_check, FORM "\"ticks\":1,\"threads\":{\"t\":{\"start\":[]}}}", MAINCTX_TEXT);
    try_none(mainctx_run, FORM "\"ticks\":1,\"threads\":{\"t\":{\"start\":[]}}}", MAINCTX_SHAPE);
    try_none(life, "[]", MAINCTX_SHAPE);
    try_none(mainctx_run, "", MAINCTX_NOT_JSON);
    try_none(mainctx_run, "{}", MAINCTX_SHAPE);
    try_none(mainctx_check, "{\"version\":1,\"ticks\":1,\"tick_us\":1,\"lanes\":[{\"contexts\":1,\"start\":[]}]}", MAINCTX_TEXT);
    free(script.at);
    free(text.at);
    free(faulty.at);
    free(faults.at);
    free(named.at);
    return 0;
}
