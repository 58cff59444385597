/* Reads a script with jansson. Nothing here is GLib's: this is the harness's. */
#include "script.h"

#include <jansson.h>
#include <stdarg.h>
#include <stdio.h>
#include <stdlib.h>
#include <string.h>

static const char *const words[WORDS] = {
    "attach", "child", "destroy", "set_ready", "set_priority", "iterate", "pending", "run", "quit", "cancel", "connect",
    "disconnect", "task", "push", "pop", "show_default", "acquire", "release", "invoke", "log", "give",
};
static const char *const kinds[KINDS] = {"idle", "timeout", "ready", "fd", "cancel"};
static const char *const tree_words[TREES] = {"value", "fail", "sleep", "check", "seq", "both", "first", "within"};

static const int idle_priority = 200;

G_GNUC_NORETURN G_GNUC_PRINTF(1, 2) static void refuse(const char *format, ...) {
    va_list values;
    va_start(values, format);
    fputs("glib_run: the script is refused: ", stderr);
    vfprintf(stderr, format, values);
    fputc('\n', stderr);
    va_end(values);
    exit(2);
}

/* a list's word, as its place in a list of words */
static int word_of(const json_t *list, const char *const *known, int count, const char *what) {
    const char *word = json_string_value(json_array_get(list, 0));
    for (int at = 0; word && at < count; at++)
        if (!strcmp(word, known[at]))
            return at;
    refuse("%s is no %s", word ? word : "a value without a word", what);
}

static gint64 number(const json_t *list, size_t at) { return json_integer_value(json_array_get(list, at)); }

static gint64 number_of(const json_t *object, const char *key) { return json_integer_value(json_object_get(object, key)); }

/* a number, or NONE where it is null or absent */
static int index_of(const json_t *object, const char *key) {
    const json_t *value = json_object_get(object, key);
    return json_is_integer(value) ? (int)json_integer_value(value) : NONE;
}

static Spec *read_spec(const json_t *from, gboolean is_child) {
    Spec *spec = g_new0(Spec, 1);
    const json_t *kind = json_object_get(from, "kind"), *priority = json_object_get(from, "priority");
    spec->kind = (Kind)word_of(kind, kinds, KINDS, "kind");
    spec->value = number(kind, 1);
    spec->bits = number(kind, 2);
    spec->priority = spec->kind == IDLE ? idle_priority : 0;
    if (priority && !is_child)
        spec->priority = (int)json_integer_value(priority);
    spec->recurse = json_is_true(json_object_get(from, "recurse"));
    spec->call = index_of(from, "call");
    return spec;
}

static Tree *read_tree(const json_t *from) {
    Tree *tree = g_new0(Tree, 1);
    tree->word = (TreeWord)word_of(from, tree_words, TREES, "tree");
    switch (tree->word) {
    case VALUE:
    case SLEEP:
        tree->value = number(from, 1);
        break;
    case WITHIN:
        tree->value = number(from, 1);
        tree->first = read_tree(json_array_get(from, 2));
        break;
    case SEQ:
    case BOTH:
    case FIRST:
        tree->first = read_tree(json_array_get(from, 1));
        tree->second = read_tree(json_array_get(from, 2));
        break;
    default:
        break;
    }
    return tree;
}

static TaskSpec *read_task(const json_t *from) {
    TaskSpec *task = g_new0(TaskSpec, 1);
    task->tree = read_tree(json_object_get(from, "tree"));
    task->call = (int)number_of(from, "call");
    task->cancel = index_of(from, "cancel");
    task->check = !json_is_false(json_object_get(from, "check"));
    task->return_on_cancel = json_is_true(json_object_get(from, "return_on_cancel"));
    task->priority = (int)number_of(from, "priority");
    return task;
}

static Actions read_actions(const json_t *from) {
    Actions read = {.count = (int)json_array_size(from)};
    read.list = g_new0(Action, read.count + 1);
    for (int at = 0; at < read.count; at++) {
        const json_t *item = json_array_get(from, (size_t)at);
        Action *action = &read.list[at];
        action->word = (Word)word_of(item, words, WORDS, "action");
        for (size_t place = 0; place < G_N_ELEMENTS(action->numbers); place++)
            action->numbers[place] = number(item, place + 1);
        if (action->word == ATTACH || action->word == CHILD)
            action->spec = read_spec(json_array_get(item, 3), action->word == CHILD);
        if (action->word == TASK)
            action->task = read_task(json_array_get(item, 1));
    }
    return read;
}

static void read_lanes(Script *script, const json_t *from) {
    script->lanes = (int)json_array_size(from);
    script->starts = g_new0(Actions, script->lanes + 1);
    for (int lane = 0; lane < script->lanes; lane++) {
        const json_t *item = json_array_get(from, (size_t)lane);
        int count = (int)number_of(item, "contexts");
        script->homes = g_renew(int, script->homes, script->contexts + count + 1);
        for (int at = 0; at < count; at++)
            script->homes[script->contexts++] = lane;
        script->starts[lane] = read_actions(json_object_get(item, "start"));
    }
    if (script->lanes == 0 || script->contexts == 0)
        refuse("it has no thread or no context");
}

static void read_procedures(Script *script, const json_t *from) {
    script->procedures = (int)json_array_size(from);
    script->procedure = g_new0(Procedure, script->procedures + 1);
    for (int at = 0; at < script->procedures; at++) {
        const json_t *item = json_array_get(from, (size_t)at), *keep = json_object_get(item, "keep");
        script->procedure[at].actions = read_actions(json_object_get(item, "do"));
        script->procedure[at].keep = json_is_null(keep) ? NONE : json_integer_value(keep);
    }
}

static void read_descriptors(Script *script, const json_t *from) {
    script->descriptors = (int)json_array_size(from);
    script->descriptor = g_new0(Descriptor, script->descriptors + 1);
    for (int at = 0; at < script->descriptors; at++) {
        const json_t *pairs = json_array_get(from, (size_t)at);
        Descriptor *descriptor = &script->descriptor[at];
        descriptor->count = (int)json_array_size(pairs);
        descriptor->ticks = g_new0(gint64, descriptor->count + 1);
        descriptor->bits = g_new0(gint64, descriptor->count + 1);
        for (int pair = 0; pair < descriptor->count; pair++) {
            descriptor->ticks[pair] = number(json_array_get(pairs, (size_t)pair), 0);
            descriptor->bits[pair] = number(json_array_get(pairs, (size_t)pair), 1);
        }
    }
}

void read_script(Script *script) {
    json_error_t error;
    json_t *from = json_loadf(stdin, JSON_DECODE_ANY, &error);
    if (!from)
        refuse("line %d, column %d: %s", error.line, error.column, error.text);
    script->version = (int)number_of(from, "version");
    script->ticks = (guint64)number_of(from, "ticks");
    script->tick_us = (guint64)number_of(from, "tick_us");
    if (script->ticks == 0 || script->tick_us == 0)
        refuse("it has no ticks or no tick_us");
    script->cancellables = (int)number_of(from, "cancellables");
    read_lanes(script, json_object_get(from, "lanes"));
    read_procedures(script, json_object_get(from, "procs"));
    read_descriptors(script, json_object_get(from, "fds"));
    const json_t *loops = json_object_get(from, "loops");
    script->loops = (int)json_array_size(loops);
    script->loop_contexts = g_new0(int, script->loops + 1);
    for (int at = 0; at < script->loops; at++)
        script->loop_contexts[at] = (int)number(loops, (size_t)at);
    json_decref(from);
}

int level_at(const Descriptor *of, guint64 tick) {
    int level = 0;
    for (int at = 0; at < of->count && (guint64)of->ticks[at] <= tick; at++)
        level = (int)of->bits[at];
    return level;
}
