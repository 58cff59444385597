/* The text of each thread, kept in memory until the run is over. The harness's: of what stands in a line, an id, a priority, a depth
   and true or false are what the library answered. */
#include "run.h"

#include <stdarg.h>
#include <stdio.h>
#include <string.h>
#include <unistd.h>

enum { LINE_AT_MOST = 160 };

static int texts = STDOUT_FILENO; /* where texts are written */

void keep_standard_output(void) {
    texts = dup(STDOUT_FILENO);
    if (texts < 0 || dup2(STDERR_FILENO, STDOUT_FILENO) < 0)
        g_error("no descriptor is left");
}

static char *room_for_a_line(void) {
    if (self->length + LINE_AT_MOST > self->room) {
        self->room = 2 * self->room + 16 * LINE_AT_MOST;
        self->text = g_realloc(self->text, self->room);
    }
    return self->text + self->length;
}

void say(const char *format, ...) {
    va_list values;
    char *line = room_for_a_line();
    int length = g_snprintf(line, LINE_AT_MOST, "%" G_GUINT64_FORMAT " ", self->tick);
    va_start(values, format);
    length += g_vsnprintf(line + length, (gulong)(LINE_AT_MOST - length), format, values);
    va_end(values);
    line[length++] = '\n';
    self->length += (gsize)length;
}

static char *put_word(char *at, const char *word) {
    gsize length = strlen(word);
    memcpy(at, word, length);
    return at + length;
}

static char *put_number(char *at, guint64 number) {
    char digits[24];
    int first = sizeof digits;
    do
        digits[--first] = (char)('0' + number % 10);
    while (number /= 10);
    memcpy(at, digits + first, sizeof digits - (gsize)first);
    return at + sizeof digits - (gsize)first;
}

/* (most lines are of the next two kinds: without the C library's formatting, so that a run can be timed beside another program's) */
void say_log(guint64 number) {
    char *line = room_for_a_line(), *at = put_number(line, self->tick);
    at = put_number(put_word(at, " log "), number);
    *at++ = '\n';
    self->length += (gsize)(at - line);
}

void say_dispatch(int context, guint64 source, int priority, int depth) {
    char *line = room_for_a_line(), *at = put_number(line, self->tick);
    at = put_number(put_word(at, " dispatch ctx "), (guint64)context);
    at = put_number(put_word(at, " source "), source);
    at = put_word(at, priority < 0 ? " priority -" : " priority ");
    at = put_number(at, (guint64)(priority < 0 ? -(gint64)priority : priority));
    at = put_number(put_word(at, " depth "), (guint64)depth);
    *at++ = '\n';
    self->length += (gsize)(at - line);
}

static void write_whole(const char *from, gsize length) {
    while (length > 0) {
        ssize_t written = write(texts, from, length);
        if (written <= 0)
            return;
        from += written;
        length -= (gsize)written;
    }
}

/* (by write alone: it is also called where the library has aborted) */
void write_texts(void) {
    for (int at = 0; at < script.lanes; at++) {
        char title[32];
        char *end = put_number(put_word(title, "thread "), (guint64)at);
        *end++ = '\n';
        write_whole(title, (gsize)(end - title));
        write_whole(lanes[at].text, lanes[at].length);
    }
}
