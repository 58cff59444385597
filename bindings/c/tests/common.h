/* What the tests of the library share. */
#ifndef COMMON_H
#define COMMON_H

#include "mainctx.h"
#include <stdnoreturn.h>

/* bytes of the heap, which whoever gets them frees */
struct bytes {
    uint8_t *at;
    size_t size;
};

typedef uint32_t library_function(const uint8_t *, size_t, uint8_t *, size_t, size_t *);

/* a call of the library, and what it answers where the whole of its text is in the room */
struct call {
    library_function *function;
    uint32_t whole;
};

/* the calls that take more than a script, each of the whole run: of a text with notes, of a life that of source 1 of context 0, of a stack that of thread
   0 at the end of tick 0, of a picture lines of 80 characters */
library_function text, account, why, life, steps, stack, timeline;

static const struct call RUN = {mainctx_run, MAINCTX_TEXT}, TRANSLATE = {mainctx_translate, MAINCTX_TEXT}, CHECK = {mainctx_check, MAINCTX_FAULTS};

/* those that tell of a run of a script of either form */
static const struct call TELLING[] = {
    {account, MAINCTX_TEXT},         {why, MAINCTX_TEXT},   {life, MAINCTX_TEXT},  {text, MAINCTX_TEXT},     {mainctx_summary, MAINCTX_TEXT},
    {mainctx_notes, MAINCTX_TEXT}, {steps, MAINCTX_TEXT}, {stack, MAINCTX_TEXT}, {timeline, MAINCTX_TEXT},
};
enum { TELLING_COUNT = sizeof TELLING / sizeof *TELLING };

/* ends the test: what is wrong, as printf says it */
noreturn void wrong(const char *what, ...);

/* a whole file */
struct bytes file(const char *path);

/* the text that a call leaves of a script */
struct bytes text_of(struct call call, struct bytes script);

/* ends the test where the text is another than is wanted */
void same(const char *what, struct bytes text, struct bytes wanted);

#endif
