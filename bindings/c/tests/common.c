/* What the tests of the library share. */
#include "common.h"
#include <stdarg.h>
#include <stdio.h>
#include <stdlib.h>
#include <string.h>

enum { FIRST_ROOM = 4096, COLUMNS = 80 };

noreturn void wrong(const char *what, ...) {
    va_list values;
    va_start(values, what);
    vprintf(what, values);
    va_end(values);
    printf("\n");
    exit(EXIT_FAILURE);
}

static uint8_t *room_of(size_t size) {
    uint8_t *room = malloc(size != 0 ? size : 1);
    if (room == NULL) wrong("no memory");
    return room;
}

struct bytes file(const char *path) {
    FILE *stream = fopen(path, "rb");
    if (stream == NULL || fseek(stream, 0, SEEK_END) != 0) wrong("%s: can't be read", path);
    long end = ftell(stream);
    rewind(stream);
    struct bytes bytes = {room_of((size_t)end), (size_t)end};
    if (fread(bytes.at, 1, bytes.size, stream) != bytes.size) wrong("%s: can't be read", path);
    fclose(stream);
    return bytes;
}

uint32_t text(const uint8_t *script, size_t script_size, uint8_t *room, size_t room_size, size_t *needed) {
    return mainctx_text(script, script_size, 1, room, room_size, needed);
}

uint32_t account(const uint8_t *script, size_t script_size, uint8_t *room, size_t room_size, size_t *needed) {
    return mainctx_account(script, script_size, 0, UINT64_MAX, room, room_size, needed);
}

uint32_t why(const uint8_t *script, size_t script_size, uint8_t *room, size_t room_size, size_t *needed) {
    return mainctx_why(script, script_size, 0, UINT32_MAX, room, room_size, needed);
}

uint32_t life(const uint8_t *script, size_t script_size, uint8_t *room, size_t room_size, size_t *needed) {
    return mainctx_life(script, script_size, 0, 1, 0, UINT32_MAX, room, room_size, needed);
}

uint32_t steps(const uint8_t *script, size_t script_size, uint8_t *room, size_t room_size, size_t *needed) {
    return mainctx_steps(script, script_size, MAINCTX_EACH_THREAD, 0, UINT32_MAX, room, room_size, needed);
}

uint32_t stack(const uint8_t *script, size_t script_size, uint8_t *room, size_t room_size, size_t *needed) {
    return mainctx_stack(script, script_size, 0, 0, MAINCTX_END_OF_TURN, room, room_size, needed);
}

uint32_t timeline(const uint8_t *script, size_t script_size, uint8_t *room, size_t room_size, size_t *needed) {
    return mainctx_timeline(script, script_size, MAINCTX_EACH_THREAD, 0, UINT32_MAX, COLUMNS, room, room_size, needed);
}

struct bytes text_of(struct call call, struct bytes script) {
    struct bytes room = {room_of(FIRST_ROOM), FIRST_ROOM};
    size_t needed;
    uint32_t answer = call.function(script.at, script.size, room.at, room.size, &needed);
    if (answer == MAINCTX_SHORT_ROOM) {
        free(room.at);
        room = (struct bytes){room_of(needed), needed};
        answer = call.function(script.at, script.size, room.at, room.size, &needed);
    }
    if (answer != call.whole) wrong("the answer is %u", (unsigned)answer);
    return (struct bytes){room.at, needed};
}

void same(const char *what, struct bytes text, struct bytes wanted) {
    if (text.size != wanted.size || memcmp(text.at, wanted.at, text.size) != 0) wrong("%s: another text", what);
}
