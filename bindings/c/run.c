/* run [WORKERS SHARING] < SCRIPT: does what `mainctx` does, by the library; the arguments are passed over, since the text is one.
   Status 0: the text is on standard output. 2: the script is refused, and its class is told. 3: memory. 4: input or output. */
#include "mainctx.h"
#include <stdio.h>
#include <stdlib.h>

enum { SCRIPT_MOST = 4194304, FIRST_ROOM = 65536, REFUSED = 2, NO_MEMORY = 3, NO_STREAM = 4 };

static const char *const CLASSES[] = {
    [MAINCTX_NOT_JSON] = "not json",
    [MAINCTX_SHAPE] = "shape",
    [MAINCTX_LIMIT] = "limit",
    [MAINCTX_REFERENCE] = "reference",
    [MAINCTX_RULE] = "rule",
};

static int fail(int status, const char *line) {
    fprintf(stderr, "%s\n", line);
    return status;
}

static int tell(uint32_t answer, const uint8_t *text, size_t length) {
    switch (answer) {
    case MAINCTX_TEXT:
        return fwrite(text, 1, length, stdout) == length && fflush(stdout) == 0 ? 0 : fail(NO_STREAM, "write");
    case MAINCTX_MEMORY:
        return fail(NO_MEMORY, "memory");
    default:
        fprintf(stderr, "script: %s\n", CLASSES[answer]);
        return REFUSED;
    }
}

int main(void) {
    static uint8_t script[SCRIPT_MOST + 1];
    size_t size = fread(script, 1, sizeof script, stdin), room = FIRST_ROOM, needed;
    if (ferror(stdin) || size > SCRIPT_MOST) return fail(NO_STREAM, "read");
    uint8_t *text = malloc(room);
    if (text == NULL) return fail(NO_MEMORY, "memory");
    uint32_t answer = mainctx_run(script, size, text, room, &needed);
    if (answer == MAINCTX_SHORT_ROOM) {
        free(text);
        room = needed;
        text = malloc(room);
        if (text == NULL) return fail(NO_MEMORY, "memory");
        answer = mainctx_run(script, size, text, room, &needed);
    }
    int status = tell(answer, text, needed);
    free(text);
    return status;
}
