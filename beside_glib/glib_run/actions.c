/* What each action is in the library. An action is the library's own call wherever there is one, across threads too: any thread attaches,
   acquires, pushes, invokes, iterates, runs and quits what the library lets it. The harness's: slots, the ids of handlers, the levels at
   which a child may stand, the line `miss` where a slot names nothing or the library refuses the call of an error of its caller
   (of a `release`, which the library never refuses, where the thread does not own the context), and `give`, which the library has not. */
#include "run.h"

static const char *word_of(gboolean truth) { return truth ? "true" : "false"; }

static void miss(const char *word) { say("miss %s", word); }

static ScriptSource *living(const Slot *slots, gint64 slot) {
    const Slot *of = &slots[slot];
    return of->names == NAMES_SOURCE && !g_source_is_destroyed(of->source->source) ? of->source : NULL;
}

static void name_source(gint64 slot, ScriptSource *source) { self->slots[slot] = (Slot){.names = NAMES_SOURCE, .source = source}; }

static void attach(const Action *action) {
    int context = (int)action->numbers[0];
    GSource *source = make_source(action->spec);
    ScriptSource *of = new_source(context, source, action->spec->call);
    call_back(source, action->spec, of);
    g_source_attach(source, contexts[context]);
    name_source(action->numbers[1], of);
}

static void add_child(const Action *action) {
    enum { LEVELS_OF_VERSION_1 = 2, LEVELS_OF_VERSION_2 = 4 };
    ScriptSource *parent = living(self->slots, action->numbers[0]);
    if (!parent || parent->level >= (script.version == 2 ? LEVELS_OF_VERSION_2 : LEVELS_OF_VERSION_1)) {
        miss("child");
        return;
    }
    GSource *source = make_source(action->spec);
    ScriptSource *of = new_source(parent->context, source, action->spec->call);
    of->parent = parent;
    of->level = parent->level + 1;
    call_back(source, action->spec, of);
    g_source_add_child_source(parent->source, source);
    name_source(action->numbers[1], of);
}

/* (the library refuses it of a child) */
static void set_priority(const Action *action) {
    const ScriptSource *of = living(self->slots, action->numbers[0]);
    self->criticised = FALSE;
    if (of)
        g_source_set_priority(of->source, (gint)action->numbers[1]);
    if (!of || self->criticised)
        miss("set_priority");
}

static void iterate(int context) {
    self->announced = TRUE;
    gboolean selected = g_main_context_iteration(contexts[context], FALSE);
    self->announced = FALSE;
    say("iterate ctx %d %s", context, word_of(selected));
}

static void ask_pending(int context) {
    self->announced = TRUE;
    gboolean selected = g_main_context_pending(contexts[context]);
    self->announced = FALSE;
    say("pending ctx %d %s", context, word_of(selected));
}

/* whether the library's call would find the context free, or this thread's own */
static gboolean would_acquire(GMainContext *context) {
    gboolean acquired = g_main_context_acquire(context);
    if (acquired)
        g_main_context_release(context);
    return acquired;
}

/* Runs a loop. What comes before the library's call is the harness's: where the loops of this thread have had their iteration of the tick,
   it rests; and where the call would wait for a thread that owns the context, this one asks again in each turn, so that
   the baton goes on. A quit ends both. */
static void run(int loop) {
    GMainContext *context = contexts[script.loop_contexts[loop]];
    guint64 quits_before = quits[loop];
    if (self->loop_iterated)
        next_tick();
    while (quits[loop] == quits_before && !would_acquire(context))
        next_tick();
    if (quits[loop] == quits_before) {
        self->runs[self->running++] = loop;
        g_main_loop_run(loops[loop]);
        self->running--;
    }
    say("loop %d end", loop);
}

static void quit(int loop) {
    quits[loop]++;
    g_main_loop_quit(loops[loop]);
}

/* Has the line `cancel` in the text of this thread, once. */
void see_cancelled(int cancellable) {
    if (!self->seen[cancellable])
        say("cancel %d", cancellable);
    self->seen[cancellable] = TRUE;
}

static void cancel(int cancellable) {
    if (g_cancellable_is_cancelled(cancellables[cancellable]))
        return;
    Letter letter = {.news = CANCELLED_BY, .number = cancellable};
    see_cancelled(cancellable);
    g_cancellable_cancel(cancellables[cancellable]);
    g_array_append_val(self->letters, letter);
}

/* what a handler may do as well. A handler finds the slots of the thread that connected it, in whichever it is called */
static gboolean plain_action(const Action *action, const Slot *slots) {
    const ScriptSource *of = NULL;
    switch (action->word) {
    case LOG:
        say_log((guint64)action->numbers[0]);
        return TRUE;
    case QUIT:
        quit((int)action->numbers[0]);
        return TRUE;
    case SET_READY:
        if ((of = living(slots, action->numbers[0])))
            g_source_set_ready_time(of->source, action->numbers[1]);
        else
            miss("set_ready");
        return TRUE;
    case DESTROY:
        if ((of = living(slots, action->numbers[0])))
            g_source_destroy(of->source);
        else
            miss("destroy");
        return TRUE;
    default:
        return FALSE;
    }
}

static void handle(GCancellable *cancellable G_GNUC_UNUSED, gpointer data) {
    const Handler *handler = data;
    const Actions *actions = &script.procedure[handler->procedure].actions;
    say("handler %" G_GUINT64_FORMAT, handler->id);
    for (int at = 0; at < actions->count; at++)
        plain_action(&actions->list[at], lanes[handler->lane].slots);
}

static void connect_handler(const Action *action) {
    Handler *handler = g_new0(Handler, 1);
    GCancellable *cancellable = cancellables[action->numbers[0]];
    *handler = (Handler){.lane = self->number, .cancellable = (int)action->numbers[0], .procedure = (int)action->numbers[2]};
    if (!g_cancellable_is_cancelled(cancellable))
        handler->id = ++self->handlers;
    handler->signal = g_cancellable_connect(cancellable, G_CALLBACK(handle), handler, NULL);
    self->slots[action->numbers[1]] = (Slot){.names = NAMES_HANDLER, .handler = handler};
}

static void disconnect_handler(gint64 slot) {
    Handler *handler = self->slots[slot].names == NAMES_HANDLER ? self->slots[slot].handler : NULL;
    if (!handler || (handler->id != 0 && handler->signal == 0)) {
        miss("disconnect");
        return;
    }
    g_cancellable_disconnect(cancellables[handler->cancellable], handler->signal);
    handler->signal = 0;
}

static void start_task(const TaskSpec *spec) {
    Task *task = g_new0(Task, 1);
    *task = (Task){.lane = self->number, .number = self->tasks_begun++, .spec = spec, .begun = self->tick + 1, .cancelled = NONE};
    task->task = g_task_new(NULL, spec->cancel == NONE ? NULL : cancellables[spec->cancel], task_ended, task);
    g_task_set_priority(task->task, spec->priority);
    g_task_set_check_cancellable(task->task, spec->check);
    if (spec->return_on_cancel)
        g_task_set_return_on_cancel(task->task, TRUE);
    g_ptr_array_add(self->tasks, task);
}

typedef struct {
    int context, procedure;
    gboolean called;
    ScriptSource *source; /* where the library attached one, and did not call at once */
} Invocation;

static gboolean invoked(gpointer data) {
    Invocation *invocation = data;
    invocation->called = TRUE;
    if (invocation->source) {
        begin_dispatch(invocation->source);
    } else {
        if (self->calls >= CALLS_AT_MOST)
            halt("halt depth");
        say("invoke ctx %d direct", invocation->context);
    }
    call_procedure(invocation->procedure);
    return G_SOURCE_REMOVE;
}

/* What the library attached to a context of another thread is called `posted`, and its `arrive` is told at the end of the tick. */
static void invoke(int context, int procedure) {
    Invocation *invocation = g_new0(Invocation, 1);
    *invocation = (Invocation){.context = context, .procedure = procedure};
    g_main_context_invoke_full(contexts[context], G_PRIORITY_DEFAULT, invoked, invocation, NULL);
    if (invocation->called)
        return;
    GSource *source = g_main_context_find_source_by_user_data(contexts[context], invocation);
    invocation->source = new_source(context, g_source_ref(source), procedure);
    gboolean is_own = homes[context] == self->number && !is_given[context];
    say("invoke ctx %d %s", context, is_own ? "attached" : "posted");
    if (!is_own) {
        Letter letter = {.news = ARRIVED, .source = invocation->source};
        g_array_append_val(self->letters, letter);
    }
}

/* the library refuses a push of what another thread owns, and a pop of what is not on top, by a critical message (main.c takes that down) */
static void push(int context) {
    self->criticised = FALSE;
    g_main_context_push_thread_default(contexts[context]);
    if (self->criticised)
        miss("push");
}

static void pop(int context) {
    self->criticised = FALSE;
    g_main_context_pop_thread_default(contexts[context]);
    if (self->criticised)
        miss("pop");
}

static void show_default(void) {
    GMainContext *context = g_main_context_ref_thread_default();
    say("default ctx %d", context_number(context));
    g_main_context_unref(context);
}

static void release(int context) {
    if (g_main_context_is_owner(contexts[context]))
        g_main_context_release(contexts[context]);
    else
        miss("release");
}

static void give(int context, int to) {
    if (homes[context] != self->number || is_given[context] || g_main_context_is_owner(contexts[context]) || to == self->number) {
        miss("give");
        return;
    }
    Letter letter = {.news = GIVEN, .number = context, .to = to};
    g_array_append_val(self->letters, letter);
    is_given[context] = TRUE;
    say("give ctx %d lane %d", context, to);
}

/* what needs a context, and no more */
static gboolean context_action(Word word, int context) {
    switch (word) {
    case ITERATE:
        iterate(context);
        return TRUE;
    case PENDING:
        ask_pending(context);
        return TRUE;
    case PUSH:
        push(context);
        return TRUE;
    case POP:
        pop(context);
        return TRUE;
    case ACQUIRE:
        say("acquire ctx %d %s", context, word_of(g_main_context_acquire(contexts[context])));
        return TRUE;
    case RELEASE:
        release(context);
        return TRUE;
    default:
        return FALSE;
    }
}

static void do_action(const Action *action) {
    const gint64 *numbers = action->numbers;
    if (plain_action(action, self->slots) || context_action(action->word, (int)numbers[0]))
        return;
    switch (action->word) {
    case ATTACH:
        attach(action);
        break;
    case CHILD:
        add_child(action);
        break;
    case SET_PRIORITY:
        set_priority(action);
        break;
    case RUN:
        run((int)numbers[0]);
        break;
    case CANCEL:
        cancel((int)numbers[0]);
        break;
    case CONNECT:
        connect_handler(action);
        break;
    case DISCONNECT:
        disconnect_handler(numbers[0]);
        break;
    case TASK:
        start_task(action->task);
        break;
    case SHOW_DEFAULT:
        show_default();
        break;
    case INVOKE:
        invoke((int)numbers[0], (int)numbers[1]);
        break;
    case GIVE:
        give((int)numbers[0], (int)numbers[1]);
        break;
    default:
        g_error("an action without a meaning");
    }
}

void do_actions(const Actions *actions) {
    for (int at = 0; at < actions->count; at++) {
        if (self->counted >= COUNTED_AT_MOST)
            halt("halt steps");
        self->counted++;
        do_action(&actions->list[at]);
    }
}
