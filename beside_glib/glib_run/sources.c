/* Sources and their callbacks. All sources are made, attached, selected, blocked, dispatched and removed by the library. The harness's
   are what a callback does (a procedure of the script), after how many dispatches it answers G_SOURCE_REMOVE, the limits of a turn,
   and one hidden source in each context, by which ticks pass.

   The hidden source has the priority G_MININT and is attached first, so that its prepare function is the first thing that the library
   calls in an iteration; it is never ready. An `iterate` or a `pending` announces itself. Any other iteration is one that
   g_main_loop_run takes: the second of these in a tick first lets the next tick come. So g_main_loop_run runs as it is, at any depth.
   Where its loop was quit as it rested there, the hidden source is ready, and so nothing less urgent is dispatched before the loop
   returns. (A script's own priority of -2147483648 stands beside it, and would be.) */
#include "sources.h"
#include "run.h"

static gboolean let_ticks_pass(GSource *source G_GNUC_UNUSED, gint *timeout) {
    *timeout = -1;
    if (self->announced) {
        self->announced = FALSE;
        return FALSE;
    }
    if (self->loop_iterated) {
        next_tick();
        if (self->running > 0 && !g_main_loop_is_running(loops[self->runs[self->running - 1]]))
            return TRUE;
    }
    self->loop_iterated = TRUE;
    return FALSE;
}

static gboolean stay(GSource *source G_GNUC_UNUSED, GSourceFunc none G_GNUC_UNUSED, gpointer data G_GNUC_UNUSED) { return G_SOURCE_CONTINUE; }

static GSourceFuncs tick_source = {.prepare = let_ticks_pass, .dispatch = stay};

void attach_tick_source(GMainContext *context) {
    GSource *source = g_source_new(&tick_source, sizeof(GSource));
    g_source_set_priority(source, G_MININT);
    g_source_attach(source, context);
    g_source_unref(source);
}

/* takes the reference to the GSource, and keeps it: a slot goes on naming what is destroyed */
ScriptSource *new_source(int context, GSource *source, int call) {
    ScriptSource *of = g_new0(ScriptSource, 1);
    *of = (ScriptSource){.context = context, .source = source, .call = call, .level = 1};
    return of;
}

/* (kept, since the library takes its lock to tell it) */
guint64 source_id(ScriptSource *of) {
    if (of->id == 0)
        of->id = g_source_get_id(of->source) - OWN_SOURCES;
    return of->id;
}

void begin_dispatch(ScriptSource *of) {
    if (self->counted >= COUNTED_AT_MOST)
        halt("halt steps");
    if (self->calls >= CALLS_AT_MOST)
        halt("halt depth");
    self->counted++;
    of->dispatches++;
    say_dispatch(of->context, source_id(of), g_source_get_priority(of->source), g_main_depth());
}

void call_procedure(int procedure) {
    self->calls++;
    do_actions(&script.procedure[procedure].actions);
    self->calls--;
}

static gboolean dispatched(gpointer data) {
    ScriptSource *of = data;
    begin_dispatch(of);
    gint64 number = (gint64)of->dispatches;
    if (of->call == NONE)
        return G_SOURCE_CONTINUE;
    call_procedure(of->call);
    gint64 keep = script.procedure[of->call].keep;
    return keep == NONE || number <= keep ? G_SOURCE_CONTINUE : G_SOURCE_REMOVE;
}

static gboolean dispatched_cancelled(GCancellable *cancellable G_GNUC_UNUSED, gpointer data) { return dispatched(data); }

static gboolean dispatch_plain(GSource *source G_GNUC_UNUSED, GSourceFunc callback, gpointer data) { return callback(data); }

/* of `ready` and `fd`: readiness by a time or a descriptor is the library's */
static GSourceFuncs plain_source = {.dispatch = dispatch_plain};

GSource *make_source(const Spec *spec) {
    GSource *source;
    switch (spec->kind) {
    case IDLE:
        source = g_idle_source_new();
        break;
    case TIMEOUT:
        source = g_timeout_source_new((guint)spec->value);
        break;
    case OF_CANCELLABLE:
        source = g_cancellable_source_new(cancellables[spec->value]);
        break;
    default:
        source = g_source_new(&plain_source, sizeof(GSource));
        if (spec->kind == READY)
            g_source_set_ready_time(source, spec->value);
        else
            g_source_add_unix_fd(source, FIRST_DESCRIPTOR + (gint)spec->value, (GIOCondition)spec->bits);
    }
    g_source_set_priority(source, spec->priority);
    g_source_set_can_recurse(source, spec->recurse);
    return source;
}

void call_back(GSource *source, const Spec *spec, ScriptSource *of) {
    GSourceFunc function = spec->kind == OF_CANCELLABLE ? G_SOURCE_FUNC(dispatched_cancelled) : dispatched;
    g_source_set_callback(source, function, of, NULL);
}
