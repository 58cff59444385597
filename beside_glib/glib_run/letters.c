/* The news of a tick, told when its turns are over. The harness's: the lines `arrive`, `cancel` and `hold`, and when they are written. The
   library's: what another thread invoked was attached, and what it cancelled was cancelled for all threads, at that moment and
   not now; a task is returned now, from a thread of its own. */
#include "run.h"

int context_number(const GMainContext *of) {
    for (int at = 0; at < script.contexts; at++)
        if (contexts[at] == of)
            return at;
    g_error("a context that is none of the script's");
}

/* Contexts that were given away change hands before anything else is told. */
void carry_out_gives(void) {
    for (guint at = 0; at < news->len; at++) {
        const Letter *letter = &g_array_index(news, Letter, at);
        if (letter->news == GIVEN) {
            homes[letter->number] = letter->to;
            is_given[letter->number] = FALSE;
        }
    }
}

static void tell_arrival(ScriptSource *source) { say("arrive ctx %d source %" G_GUINT64_FORMAT, source->context, source_id(source)); }

static void tell(const Letter *letter) {
    switch (letter->news) {
    case REPLY:
        if (homes[context_number(g_task_get_context(letter->task->task))] == self->number) {
            return_task(letter);
            tell_arrival(letter->task->source);
        }
        break;
    case ARRIVED:
        if (homes[letter->source->context] == self->number)
            tell_arrival(letter->source);
        break;
    case CANCELLED_BY:
        see_cancelled(letter->number);
        break;
    case GIVEN:
        break;
    }
}

void deliver(void) {
    for (guint at = 0; at < news->len; at++) {
        const Letter *letter = &g_array_index(news, Letter, at);
        if (letter->news == GIVEN && letter->to == self->number)
            say("hold ctx %d", letter->number);
    }
    for (guint at = 0; at < news->len; at++)
        tell(&g_array_index(news, Letter, at));
}
