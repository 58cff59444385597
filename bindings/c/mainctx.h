/* Runs scripts of mainctx (docs/FORMAT.md) from C. The engine is proved to meet its contract (docs/PROOFS.md); what this header
   and the heap below it add is tested, and not proved. */
#ifndef MAINCTX_H
#define MAINCTX_H

#include <stddef.h>
#include <stdint.h>

#ifdef __cplusplus
extern "C" {
#endif

#define MAINCTX_VERSION 2 /* that of the calls below, as mainctx_version answers it: another library may answer another */

/* What the calls answer. */
enum {
    MAINCTX_TEXT = 0,       /* the whole of what is told is in the room; of mainctx_check: nothing is wrong */
    MAINCTX_NOT_JSON = 1,   /* the bytes are not one JSON value */
    MAINCTX_SHAPE = 2,      /* a value of the wrong type, an unknown key or word, a list of the wrong length */
    MAINCTX_LIMIT = 3,      /* a number or a count outside its range */
    MAINCTX_REFERENCE = 4,  /* an index of something that the script has not */
    MAINCTX_RULE = 5,       /* a procedure that may not be connected or invoked, and the other rules */
    MAINCTX_MEMORY = 6,     /* a request for memory was refused */
    MAINCTX_SHORT_ROOM = 7, /* the text is longer than the room */
    MAINCTX_FAULTS = 8      /* all that is wrong with the script is told in the room; of mainctx_check alone */
};

/* In the place of a thread's number: each thread; of the number of a step: the end of the turn. */
#define MAINCTX_EACH_THREAD UINT32_MAX
#define MAINCTX_END_OF_TURN UINT64_MAX

/* Runs a script of numbers to its end in the caller's thread, and puts its text into the room. It answers one of the first eight numbers
   above. One with names (docs/NAMES.md) is refused, as MAINCTX_SHAPE: what mainctx_translate gives of it runs.

   MAINCTX_TEXT: the text stands first in the room, *needed is its length in bytes, and what is behind it in the room is as it was.
   The text is ASCII, and no null byte ends it.
   MAINCTX_SHORT_ROOM: the room has as much of the text as fits, and *needed is the length of the whole: a call with a room of so
   many bytes has it, since a script has one text.
   MAINCTX_NOT_JSON to MAINCTX_RULE: the script is refused, by the first class of which it has a fault. The room is as it was, and
   *needed is 0.
   MAINCTX_MEMORY: nothing was run to its end. The room is as it was, *needed is 0, and all memory that was taken is given back.

   The script is never changed. It may have any size: 4,194,304 bytes are what the program takes, and no limit of this call.
   The caller owns the script, the room and *needed; the library keeps nothing between calls, and frees what it took. No pointer may
   be null, not even where a size is 0, and none of the three may overlap another.

   Several threads may call at once, also with one script, where malloc, realloc and free of the process allow it. Not from a signal
   handler. A call ends by itself, and can't be interrupted: how long it may take says docs/SPEED.md. */
uint32_t mainctx_run(const uint8_t *script, size_t script_size, uint8_t *room, size_t room_size, size_t *needed);

/* Puts the script of numbers that a script with names stands for into the room, as the program mainctx_inspect translate writes it but for a
   newline at the end; and of a script of numbers its own bytes. So mainctx_run takes what it gives, and the calls below tell of that in
   numbers, where they tell the script's names if they are given the script with names itself.

   It answers as mainctx_run does, with this script in place of the text. It is UTF-8. Where a script with names stands for a script of
   numbers that is refused, the class is that one's; each other fault of a script with names is MAINCTX_SHAPE. mainctx_check tells each. */
uint32_t mainctx_translate(const uint8_t *script, size_t script_size, uint8_t *room, size_t room_size, size_t *needed);

/* Tells what is wrong with a script of either form, and runs nothing: each fault as a JSON object on a line of its own, in the order of their
   places, 100 at most, as the program mainctx_check --json tells them (docs/FORMAT.md): class, pointer, line, column, byte, wanted, found.

   MAINCTX_TEXT: nothing is wrong, and mainctx_run runs the script, or of one with names what mainctx_translate gives of it. The room is as
   it was, and *needed is 0.
   MAINCTX_FAULTS: the text stands first in the room, in UTF-8, and *needed is its length in bytes; the other calls refuse the script.
   MAINCTX_SHORT_ROOM: the room has as much of that text as fits, and *needed is the length of the whole.
   MAINCTX_MEMORY: the room is as it was, *needed is 0, and all memory that was taken is given back.

   All else is as of mainctx_run. */
uint32_t mainctx_check(const uint8_t *script, size_t script_size, uint8_t *room, size_t room_size, size_t *needed);

/* Runs a script of either form, and puts the text of the run into the room: of a script with names with these and with times in the place of
   ticks, and of one of numbers as mainctx_run does. Where `notes` is not 0, a line stands behind what a move writes where the real GLib does
   otherwise in it, as mainctx_notes tells it.

   It answers as mainctx_translate does, with this text, in UTF-8, in place of the script; and so do the calls below. */
uint32_t mainctx_text(const uint8_t *script, size_t script_size, uint32_t notes, uint8_t *room, size_t room_size, size_t *needed);

/* Tells each source and loop of a run in one line, and what was silent: sources that were never dispatched, loops that did not end, threads
   that halted, and why, as the program mainctx_inspect summary tells it. */
uint32_t mainctx_summary(const uint8_t *script, size_t script_size, uint8_t *room, size_t room_size, size_t *needed);

/* Tells where the real GLib would do otherwise than a run, and by which row of docs/GLIB.md, or that nothing is known in which it would, as the
   program mainctx_inspect notes tells it. */
uint32_t mainctx_notes(const uint8_t *script, size_t script_size, uint8_t *room, size_t room_size, size_t *needed);

/* Runs a script of either form, and tells what the run does, a move at a time: the account of the run as JSON, an object a line
   (docs/ACCOUNT.md), from the move `first` on, counted from 0, and of `most` moves at most. The account's first line goes before them, and
   its last line, whose `did` is "over", comes where the run is over behind them: who finds none asks again from `first + most` on. Each
   call runs the script anew. */
uint32_t mainctx_account(const uint8_t *script, size_t script_size, uint64_t first, uint64_t most, uint8_t *room, size_t room_size,
                         size_t *needed);

/* Runs a script of either form, and tells in words why sources were dispatched or not: each iteration that is begun in the ticks from
   `first` to `last`, with a table of its context's sources, as the program mainctx_inspect why tells it. The run ends behind the tick
   `last`. */
uint32_t mainctx_why(const uint8_t *script, size_t script_size, uint32_t first, uint32_t last, uint8_t *room, size_t room_size,
                     size_t *needed);

/* Runs a script of either form, and tells in words the life of the source with this id in a context, as the program mainctx_inspect why
   --source tells it: attached by whom, each dispatch, each iteration in the ticks from `first` to `last` that left it out and why,
   destroyed by whom. */
uint32_t mainctx_life(const uint8_t *script, size_t script_size, uint32_t context, uint64_t id, uint32_t first, uint32_t last,
                      uint8_t *room, size_t room_size, size_t *needed);

/* Tells each step of each turn of a thread, or of each, in the ticks from `first` to `last`, in a row: what is done, what is in progress after it
   from the outermost inwards, and the lines of the text that it writes, as the program mainctx_inspect steps tells it. */
uint32_t mainctx_steps(const uint8_t *script, size_t script_size, uint32_t thread, uint32_t first, uint32_t last, uint8_t *room,
                       size_t room_size, size_t *needed);

/* Tells what a thread is in the middle of at one moment of a tick, after `step` steps of its turn, where 0 is before the first, or at the turn's
   end, as the program mainctx_inspect stack tells it. Where the run has no such thread, tick or step, nothing is told: *needed is 0. */
uint32_t mainctx_stack(const uint8_t *script, size_t script_size, uint32_t thread, uint32_t tick, uint64_t step, uint8_t *room,
                       size_t room_size, size_t *needed);

/* Draws the run of a thread, or of each, in the ticks from `first` to `last`: a row for each source, loop, task and cancellable, with time going
   right, in lines of `columns` characters at most, 50 at least, as the program mainctx_inspect timeline draws it. */
uint32_t mainctx_timeline(const uint8_t *script, size_t script_size, uint32_t thread, uint32_t first, uint32_t last, uint32_t columns,
                          uint8_t *room, size_t room_size, size_t *needed);

/* The version of these calls: MAINCTX_VERSION of the header with which the library was made. It rises where one of them is changed in a
   way that a caller may notice. */
uint32_t mainctx_version(void);

#ifdef __cplusplus
}
#endif
#endif
