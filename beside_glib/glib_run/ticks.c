/* Virtual time: the clock, the poll function, and the order in which threads take their turns. All of it is the harness's.

   The clock. clock_gettime is defined here, so what the library reads as monotonic time is the tick's number times its length.

   Turns. Each thread of the script is a real one, and one of them runs at a time: it holds the baton from the beginning of its turn
   until it has nothing to do in this tick. Turns go by the threads' numbers; then the news of the tick are delivered, in the same order.
   So whatever threads do to a context of each other's, they do it in one order, which is the same in each run. */
#define _GNU_SOURCE
#include "run.h"
#include "sources.h"

#include <stdlib.h>
#include <sys/syscall.h>
#include <time.h>
#include <unistd.h>

static volatile gint64 now; /* microseconds */

int clock_gettime(clockid_t clock, struct timespec *to) {
    if (clock != CLOCK_MONOTONIC)
        return (int)syscall(SYS_clock_gettime, clock, to);
    to->tv_sec = now / G_USEC_PER_SEC;
    to->tv_nsec = (now % G_USEC_PER_SEC) * 1000;
    return 0;
}

/* Descriptors show what the script says at this tick, and the library's own wake-up descriptor nothing: nobody waits in a poll. */
gint poll_of_the_tick(GPollFD *asked, guint count, gint timeout G_GNUC_UNUSED) {
    gint shown = 0;
    for (guint at = 0; at < count; at++) {
        asked[at].revents = 0;
        if (asked[at].fd >= FIRST_DESCRIPTOR) {
            int level = level_at(&script.descriptor[asked[at].fd - FIRST_DESCRIPTOR], self->tick);
            asked[at].revents = (gushort)(level & (asked[at].events | G_IO_ERR | G_IO_HUP | G_IO_NVAL));
        }
        shown += asked[at].revents != 0;
    }
    return shown;
}

enum { NOBODY = -1, SECONDS_OF_A_TURN = 3 };

static GMutex baton_mutex;
static GCond baton_passed;
static int baton = NOBODY;

static void wait_for_baton(int as) {
    g_mutex_lock(&baton_mutex);
    while (baton != as)
        g_cond_wait(&baton_passed, &baton_mutex);
    g_mutex_unlock(&baton_mutex);
}

static void pass_baton(int to, int as) {
    g_mutex_lock(&baton_mutex);
    baton = to;
    g_cond_broadcast(&baton_passed);
    g_mutex_unlock(&baton_mutex);
    wait_for_baton(as);
}

G_GNUC_NORETURN static void finish(void) {
    write_texts();
    _exit(0);
}

/* A script of one thread needs no other one to give it turns. */
static void next_tick_alone(void) {
    GArray *sent = self->letters;
    self->letters = news;
    news = sent;
    carry_out_gives();
    deliver();
    g_array_set_size(news, 0);
    if (self->tick + 1 >= script.ticks)
        finish();
    now += (gint64)script.tick_us;
}

/* Ends the turn of this thread; when it returns, the next one has begun: news were delivered, and its tasks polled. */
void next_tick(void) {
    if (script.lanes == 1) {
        next_tick_alone();
    } else {
        pass_baton(NOBODY, self->number);
        deliver();
        pass_baton(NOBODY, self->number); /* after the last tick for ever */
    }
    self->tick++;
    self->counted = 0;
    self->loop_iterated = FALSE;
    poll_tasks();
}

void rest_for_ever(void) {
    for (;;)
        next_tick();
}

void halt(const char *why) {
    say("%s", why);
    rest_for_ever();
}

static void begin_lane(Lane *lane) {
    self = lane;
    do_actions(&script.starts[lane->number]);
    halt("end");
}

static gpointer lane_thread(gpointer lane) {
    wait_for_baton(((Lane *)lane)->number);
    begin_lane(lane);
    return NULL;
}

static gint64 processor_us(void) {
    struct timespec used;
    syscall(SYS_clock_gettime, CLOCK_PROCESS_CPUTIME_ID, &used);
    return used.tv_sec * G_USEC_PER_SEC + used.tv_nsec / 1000;
}

/* Whether a turn hangs, asked each time that the alarm rings: where it has rung some times while the process did nothing. Time alone does
   not tell, since a turn may be long, and a machine busy. */
gboolean turn_hangs(void) {
    enum { QUIET_ALARMS = 3, QUIET_US = 2000 };
    static gint64 used_at_last;
    static int quiet;
    gint64 used = processor_us();
    quiet = used - used_at_last < QUIET_US ? quiet + 1 : 0;
    used_at_last = used;
    alarm(SECONDS_OF_A_TURN);
    return quiet >= QUIET_ALARMS;
}

static void give_turns(void) {
    for (int lane = 0; lane < script.lanes; lane++) {
        alarm(SECONDS_OF_A_TURN);
        pass_baton(lane, NOBODY);
    }
}

static void gather_news(void) {
    g_array_set_size(news, 0);
    for (int lane = 0; lane < script.lanes; lane++) {
        g_array_append_vals(news, lanes[lane].letters->data, lanes[lane].letters->len);
        g_array_set_size(lanes[lane].letters, 0);
    }
}

void run_ticks(void) {
    if (script.lanes == 1)
        begin_lane(&lanes[0]);
    for (int lane = 0; lane < script.lanes; lane++)
        g_thread_new("lane", lane_thread, &lanes[lane]);
    for (guint64 tick = 0; tick < script.ticks; tick++) {
        now = (gint64)(tick * script.tick_us);
        give_turns();
        gather_news();
        carry_out_gives();
        give_turns();
    }
    finish();
}
