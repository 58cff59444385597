/* What the files of this program share: the script's threads and what stands for its contexts, loops and sources. */
#pragma once
#include "script.h"

#include <gio/gio.h>

/* a source of the script. Its GSource is the library's, and so are its id, priority, readiness, place and whether it is destroyed;
   the count of its dispatches is the harness's, since `keep` is asked by the number of a dispatch */
typedef struct ScriptSource {
    int context;
    GSource *source;
    guint64 id; /* 0 before it was asked for */
    int call;   /* a procedure, or NONE */
    guint64 dispatches;
    struct ScriptSource *parent;
    int level;
} ScriptSource;

/* a handler of a thread. `signal` is the library's name for it, 0 once it is disconnected */
typedef struct {
    int lane;
    guint64 id; /* its thread's, as lines show it; 0: called at once */
    int cancellable, procedure;
    gulong signal;
} Handler;

typedef enum { NAMES_NOTHING, NAMES_SOURCE, NAMES_HANDLER } Names;

typedef struct {
    Names names;
    ScriptSource *source;
    Handler *handler;
} Slot;

typedef enum { WITH_VALUE, FAILED, CANCELLED, TIMED_OUT } Outcome;

typedef struct {
    guint64 tick;
    Outcome outcome;
    gint64 value;
} End;

/* a task of the script: the GTask is the library's; that its body is a tree of timed steps is the harness's */
typedef struct Task {
    int lane;
    guint64 number;
    const TaskSpec *spec;
    GTask *task;
    guint64 begun;     /* the tick of its first poll */
    gint64 cancelled;  /* the tick of the first poll that saw it cancelled, or NONE */
    gboolean replied;
    ScriptSource *source; /* its reply, once that is attached */
} Task;

/* what the end of a tick brings to a thread's text; the order is that of the threads, then that of the letters of each */
typedef enum { REPLY, ARRIVED, CANCELLED_BY, GIVEN } News;

typedef struct {
    News news;
    Task *task;
    End end;
    ScriptSource *source;
    int number; /* a cancellable, or a context that is given */
    int to;     /* the thread that it is given to */
} Letter;

/* a thread of the script, with a real one below it */
typedef struct {
    int number;
    guint64 tick;
    char *text;
    gsize length, room;
    Slot slots[SLOTS];
    guint64 handlers, tasks_begun;
    GPtrArray *tasks;        /* those whose bodies have not ended, of Task */
    GArray *letters;         /* of this tick, of Letter */
    gboolean *seen;          /* the cancellables whose line `cancel` it has */
    gboolean announced;      /* the next iteration is that of an `iterate` or a `pending`, and no loop's */
    gboolean loop_iterated;  /* its loops have had their iteration of this tick */
    gboolean criticised;     /* the library has called an error of its caller by a critical message */
    int counted, calls;
    int runs[SLOTS], running; /* the loops that it is in, innermost last */
} Lane;

extern Script script;
extern Lane *lanes;
extern __thread Lane *self;
extern GMainContext **contexts;
extern GMainLoop **loops;
extern GCancellable **cancellables;
extern int *homes;         /* of each context, the thread whose text has its `arrive`; `give` changes it */
extern gboolean *is_given; /* in this tick, so that its thread can't give it again */
extern guint64 *quits;     /* of each loop, how often it was quit */
extern GArray *news;       /* the letters of the tick */

enum { CALLS_AT_MOST = 32, COUNTED_AT_MOST = 10000 };

/* text.c */
void keep_standard_output(void); /* for texts alone: the library writes there too where it aborts */
void say(const char *format, ...) G_GNUC_PRINTF(1, 2);
void say_log(guint64 number);
void say_dispatch(int context, guint64 source, int priority, int depth);
void write_texts(void);

/* ticks.c */
void next_tick(void);
G_GNUC_NORETURN void rest_for_ever(void);
G_GNUC_NORETURN void halt(const char *why);
void run_ticks(void);
gboolean turn_hangs(void);
gint poll_of_the_tick(GPollFD *asked, guint count, gint timeout);

/* tasks.c */
void poll_tasks(void);
void return_task(const Letter *reply);
void task_ended(GObject *none, GAsyncResult *result, gpointer of);

/* letters.c */
void deliver(void);
void carry_out_gives(void);
int context_number(const GMainContext *of);

/* sources.c */
ScriptSource *new_source(int context, GSource *source, int call);
guint64 source_id(ScriptSource *of);
GSource *make_source(const Spec *spec);
void call_back(GSource *source, const Spec *spec, ScriptSource *of);
void begin_dispatch(ScriptSource *of);
void call_procedure(int procedure);
void attach_tick_source(GMainContext *context);

/* actions.c */
void do_actions(const Actions *actions);
void see_cancelled(int cancellable);
