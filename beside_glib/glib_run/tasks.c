/* Tasks. The library's: the GTask, its context, its priority, that a return attaches a source to that context, and what the callback
   finds when it asks for the result. The harness's: that a body is a tree of timed steps, asked once in each tick whether it has ended;
   that it sees its cancellable at the beginning of a tick; the number of a task, and the line `late`. */
#include "run.h"

static guint64 ticks_of(gint64 us) { return ((guint64)us + script.tick_us - 1) / script.tick_us; }

static End tree_end(const Tree *tree, guint64 begun, gint64 cancelled);

static End both_end(const Tree *tree, guint64 begun, gint64 cancelled) {
    End first = tree_end(tree->first, begun, cancelled), second = tree_end(tree->second, begun, cancelled);
    End end = first.outcome == WITH_VALUE ? second : first;
    end.tick = MAX(first.tick, second.tick);
    return end;
}

/* when and with what a tree ends that is begun at a tick */
static End tree_end(const Tree *tree, guint64 begun, gint64 cancelled) {
    End end = {.tick = begun}, second;
    switch (tree->word) {
    case VALUE:
        end.value = tree->value;
        return end;
    case FAIL:
        end.outcome = FAILED;
        return end;
    case SLEEP:
        end.tick += ticks_of(tree->value);
        return end;
    case CHECK:
        end.outcome = cancelled != NONE && (guint64)cancelled <= begun ? CANCELLED : WITH_VALUE;
        return end;
    case SEQ:
        end = tree_end(tree->first, begun, cancelled);
        return end.outcome == WITH_VALUE ? tree_end(tree->second, end.tick, cancelled) : end;
    case BOTH:
        return both_end(tree, begun, cancelled);
    case FIRST:
        end = tree_end(tree->first, begun, cancelled);
        second = tree_end(tree->second, begun, cancelled);
        return second.tick < end.tick ? second : end;
    default:
        end = tree_end(tree->first, begun, cancelled);
        if (end.tick > begun + ticks_of(tree->value))
            end = (End){.tick = begun + ticks_of(tree->value), .outcome = TIMED_OUT};
        return end;
    }
}

static void reply(Task *task, End end) {
    Letter letter = {.news = REPLY, .task = task, .end = end};
    g_array_append_val(self->letters, letter);
    task->replied = TRUE;
}

static void poll_task(Task *task) {
    const TaskSpec *spec = task->spec;
    if (task->cancelled == NONE && spec->cancel != NONE && g_cancellable_is_cancelled(cancellables[spec->cancel]))
        task->cancelled = (gint64)self->tick;
    if (spec->return_on_cancel && task->cancelled != NONE && !task->replied)
        reply(task, (End){.tick = self->tick, .outcome = CANCELLED});
}

void poll_tasks(void) {
    for (guint at = 0; at < self->tasks->len;) {
        Task *task = self->tasks->pdata[at];
        poll_task(task);
        End end = tree_end(task->spec->tree, task->begun, task->cancelled);
        if (end.tick > self->tick) {
            at++;
            continue;
        }
        if (task->replied)
            say("task %d.%" G_GUINT64_FORMAT " late", task->lane, task->number);
        else
            reply(task, end);
        g_ptr_array_remove_index(self->tasks, at);
    }
}

static gpointer return_from_a_thread(gpointer of) {
    const Letter *letter = of;
    GTask *task = letter->task->task;
    static const int codes[] = {[FAILED] = G_IO_ERROR_FAILED, [CANCELLED] = G_IO_ERROR_CANCELLED, [TIMED_OUT] = G_IO_ERROR_TIMED_OUT};
    if (letter->end.outcome == WITH_VALUE)
        g_task_return_int(task, (gssize)letter->end.value);
    else
        g_task_return_new_error(task, G_IO_ERROR, codes[letter->end.outcome], "as the script says");
    return NULL;
}

/* Has another thread return the task, as the function of a task that runs in one does: so the library always attaches a source,
   which is the answer. */
void return_task(const Letter *letter) {
    Task *task = letter->task;
    GMainContext *context = g_task_get_context(task->task);
    g_thread_join(g_thread_new("task", return_from_a_thread, (gpointer)letter));
    GSource *source = g_main_context_find_source_by_user_data(context, task->task);
    task->source = new_source(context_number(context), g_source_ref(source), task->spec->call);
}

static void tell_result(const Task *task, gssize value, const GError *error) {
    if (!error)
        say("task %d.%" G_GUINT64_FORMAT " ok %" G_GSSIZE_FORMAT, task->lane, task->number, value);
    else
        say("task %d.%" G_GUINT64_FORMAT " %s", task->lane, task->number,
            error->code == G_IO_ERROR_FAILED ? "failed" : error->code == G_IO_ERROR_TIMED_OUT ? "timed-out" : "cancelled");
}

/* the callback of each GTask: takes the result, and calls the procedure */
void task_ended(GObject *none G_GNUC_UNUSED, GAsyncResult *result, gpointer of) {
    const Task *task = of;
    GError *error = NULL;
    begin_dispatch(task->source);
    gssize value = g_task_propagate_int(G_TASK(result), &error);
    tell_result(task, value, error);
    g_clear_error(&error);
    call_procedure(task->source->call);
}
