/* Does a redraw starve while a socket has data? Built by what is installed, and nothing else:
       cc example.c $(pkg-config --cflags --libs mainctx) -o example && ./example */
#include <mainctx.h>
#include <stdio.h>
#include <string.h>

enum { ROOM = 4096 };

static const char SCRIPT[] =
    "{\"version\": 1, \"ticks\": 8, \"tick_us\": 1000,"
    " \"fds\": [[[0, 1], [5, 0]]],"                                            /* the socket: data from tick 0, none from tick 5 on */
    " \"loops\": [0],"
    " \"procs\": [{\"do\": [], \"keep\": null}],"                              /* a callback that always stays */
    " \"lanes\": [{\"contexts\": 1, \"start\": ["
    "   [\"attach\", 0, 0, {\"kind\": [\"fd\", 0, 1], \"call\": 0}],"          /* source 1, of priority 0: the socket */
    "   [\"attach\", 0, 1, {\"kind\": [\"idle\"], \"priority\": 120, \"call\": 0}]," /* source 2: the redraw */
    "   [\"run\", 0]]}]}";

int main(void) {
    char text[ROOM];
    size_t length;
    uint32_t answer = mainctx_run((const uint8_t *)SCRIPT, strlen(SCRIPT), (uint8_t *)text, sizeof text, &length);
    if (answer != MAINCTX_TEXT) {
        fprintf(stderr, "mainctx_run: %u\n", (unsigned)answer);
        return 1;
    }
    fwrite(text, 1, length, stdout);
    return 0;
}
