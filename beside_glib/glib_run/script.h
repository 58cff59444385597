/* A script as it was read. docs/FORMAT.md says what each word means; nothing here is GLib's. */
#pragma once
#include <glib.h>

typedef enum {
    ATTACH, CHILD, DESTROY, SET_READY, SET_PRIORITY, ITERATE, PENDING, RUN, QUIT, CANCEL, CONNECT, DISCONNECT, TASK, PUSH, POP,
    SHOW_DEFAULT, ACQUIRE, RELEASE, INVOKE, LOG, GIVE, WORDS
} Word;

typedef enum { IDLE, TIMEOUT, READY, FD, OF_CANCELLABLE, KINDS } Kind;

/* what is attached: `value` is the kind's first number (milliseconds, microseconds, a descriptor or a cancellable) */
typedef struct {
    Kind kind;
    gint64 value;
    gint64 bits;
    int priority;
    gboolean recurse;
    int call; /* a procedure, or NONE: a dummy */
} Spec;

typedef enum { VALUE, FAIL, SLEEP, CHECK, SEQ, BOTH, FIRST, WITHIN, TREES } TreeWord;

typedef struct Tree {
    TreeWord word;
    gint64 value;
    struct Tree *first, *second;
} Tree;

typedef struct {
    Tree *tree;
    int call;
    int cancel; /* a cancellable, or NONE */
    gboolean check, return_on_cancel;
    int priority;
} TaskSpec;

typedef struct {
    Word word;
    gint64 numbers[3];
    Spec *spec;
    TaskSpec *task;
} Action;

typedef struct {
    Action *list;
    int count;
} Actions;

typedef struct {
    Actions actions;
    gint64 keep; /* NONE: always */
} Procedure;

typedef struct {
    int count;
    gint64 *ticks, *bits;
} Descriptor;

typedef struct {
    int version;
    guint64 ticks, tick_us;
    int lanes, contexts, loops, procedures, descriptors, cancellables;
    Actions *starts;  /* of each lane */
    int *homes;       /* of each context, its lane */
    int *loop_contexts;
    Procedure *procedure;
    Descriptor *descriptor;
} Script;

#define NONE (-1)
#define SLOTS 256

/* Reads the script from standard input; ends the program with a line on standard error where it is none. A script that
   `mainctx` refuses may be taken here, and then anything may be written: ask `mainctx` first. */
void read_script(Script *script);

/* the bits that a descriptor shows at a tick */
int level_at(const Descriptor *of, guint64 tick);
