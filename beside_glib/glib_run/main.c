/* glib_run: runs a script on the real GLib, in virtual time.

   usage: glib_run < script.json     writes the text, as `mainctx 1 fixed` does
          glib_run --version         tells the GLib that it runs on, and on a second line whether that refuses a release of a context
                                     that nobody owns (`release-is-checked`): 2.74.6 does not, 2.84.4 does

   Each file says at its head what in it is the library's and what is this harness's. What the library is asked for it does by itself:
   which sources are ready, selected, blocked, dispatched and dropped, who owns a context, what the thread-default one is, what is
   cancelled, what a task's callback finds.

   Status 0: the text was written. 2: no script. 3: the library aborted, or a thread waits in it for one that cannot run meanwhile;
   the text up to there was written, and standard error says why. */
#include "run.h"

#include <signal.h>
#include <stdio.h>
#include <string.h>
#include <unistd.h>

Script script;
Lane *lanes;
__thread Lane *self;
GMainContext **contexts;
GMainLoop **loops;
GCancellable **cancellables;
int *homes;
gboolean *is_given;
guint64 *quits;
GArray *news;

enum { NO_SCRIPT = 2, CUT_OFF = 3 };

static void make_contexts(void) {
    contexts = g_new0(GMainContext *, script.contexts);
    homes = script.homes;
    is_given = g_new0(gboolean, script.contexts);
    for (int at = 0; at < script.contexts; at++) {
        contexts[at] = at == 0 ? g_main_context_default() : g_main_context_new();
        g_main_context_set_poll_func(contexts[at], poll_of_the_tick);
        attach_tick_source(contexts[at]);
    }
}

static void make_loops(void) {
    loops = g_new0(GMainLoop *, script.loops + 1);
    quits = g_new0(guint64, script.loops + 1);
    for (int at = 0; at < script.loops; at++)
        loops[at] = g_main_loop_new(contexts[script.loop_contexts[at]], FALSE);
}

static void make_cancellables(void) {
    cancellables = g_new0(GCancellable *, script.cancellables + 1);
    for (int at = 0; at < script.cancellables; at++)
        cancellables[at] = g_cancellable_new();
}

static void make_lanes(void) {
    lanes = g_new0(Lane, script.lanes);
    for (int at = 0; at < script.lanes; at++) {
        lanes[at].number = at;
        lanes[at].tasks = g_ptr_array_new();
        lanes[at].letters = g_array_new(FALSE, FALSE, sizeof(Letter));
        lanes[at].seen = g_new0(gboolean, script.cancellables + 1);
    }
    news = g_array_new(FALSE, FALSE, sizeof(Letter));
}

/* what the library says of an error of its caller */
static void take_down(const gchar *domain, GLogLevelFlags level, const gchar *message, gpointer data G_GNUC_UNUSED) {
    if (self)
        self->criticised = TRUE;
    fprintf(stderr, "thread %d, tick %" G_GUINT64_FORMAT ": %s-%s: %s\n", self ? self->number : 0, self ? self->tick : 0, domain ? domain : "",
            level & G_LOG_LEVEL_CRITICAL ? "CRITICAL" : "message", message);
}

static void cut_off(int signal) {
    static const char waits[] = "glib_run: a thread waits in the library for a context that another thread owns, and holds up the others\n";
    static const char aborted[] = "glib_run: the library aborted\n";
    if (signal == SIGALRM && !turn_hangs())
        return;
    write_texts();
    if (signal == SIGALRM)
        (void)!write(STDERR_FILENO, waits, sizeof waits - 1);
    else
        (void)!write(STDERR_FILENO, aborted, sizeof aborted - 1);
    _exit(CUT_OFF);
}

static void tell_version(void) {
    static Lane asking;
    self = &asking;
    g_log_set_default_handler(take_down, NULL);
    g_main_context_release(g_main_context_new());
    printf("%u.%u.%u\n%s", glib_major_version, glib_minor_version, glib_micro_version, asking.criticised ? "release-is-checked\n" : "");
}

int main(int count, char **words) {
    if (count == 2 && !strcmp(words[1], "--version")) {
        tell_version();
        return 0;
    }
    if (count != 1) {
        fputs("usage: glib_run < script.json\n", stderr);
        return NO_SCRIPT;
    }
    keep_standard_output();
    read_script(&script);
    g_log_set_default_handler(take_down, NULL);
    signal(SIGABRT, cut_off);
    signal(SIGALRM, cut_off);
    make_contexts();
    make_loops();
    make_cancellables();
    make_lanes();
    run_ticks();
}
