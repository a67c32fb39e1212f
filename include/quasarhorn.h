/* Quasarhorn for C and C++: the engine's calls on numbers and bytes that the host lends (docs/HOST.md).
 *
 * Link with libboundary.a, for x86-64: `tests/archive` makes it. The archive needs memcpy and memset, and nothing else: it
 * allocates nothing, keeps nothing between calls, and any number of threads may call it, each with memory of its own.
 *
 * Every call may be made with any numbers in slices of any length; a slice of length 0 may have any pointer that is aligned and not null.
 * What is lent to be changed must not overlap anything else that is lent to the same call.
 *
 * A call gives its answer, one of enum qh_answer. A call that is refused, that is with any other answer than QH_DONE, leaves the widget's
 * numbers exactly as they were and sets all that was lent for its output to 0. */
#ifndef QUASARHORN_H
#define QUASARHORN_H

#include <stddef.h>
#include <stdint.h>

#ifdef __cplusplus
extern "C" {
#endif

/* ---- sizes */

#define QH_STATES 64              /* states of a chart, at most (at least 2) */
#define QH_VARIABLES 16           /* variables, at most */
#define QH_EVENTS 32              /* events, at most; they are numbered from 1 */
#define QH_TRANSITIONS 128        /* transitions, at most */
#define QH_ACTIONS 256            /* actions in all, at most */
#define QH_QUEUE 16               /* events that can wait */
#define QH_NULL_STEPS 32          /* null steps in one call, at most */
#define QH_NUMBER_MOST 1000000000 /* constants, arguments and range ends lie within plus or minus this */

#define QH_TEXT_BYTES 32768    /* the longest chart text; room for every text that is written */
#define QH_CHART_NUMBERS 2421  /* numbers of a chart */
#define QH_WIDGET_NUMBERS 178  /* numbers of a widget */
#define QH_PLAN_NUMBERS 462390 /* room for the plan of every chart; most need far less */
#define QH_ENTRY_NUMBERS 3     /* numbers of a trace entry */

/* ---- answers */

enum qh_answer {
    QH_DONE = 0,
    QH_WRONG_LINE = 1,     /* a line has a wrong form, place or number, or the E line is missing; place: the line */
    QH_OUTSIDE_SIZE = 2,   /* a count or number is outside its size; place: the line, 0 for a text that is too long */
    QH_RULE_FAILS = 3,     /* the chart fails a rule; place: its number, R0 to R7 */
    QH_PLAN_TOO_LONG = 4,  /* the plan is longer than the numbers lent */
    QH_NOT_A_PLAN = 5,     /* the numbers are no well-formed plan */
    QH_FOREIGN = 6,        /* the widget's numbers are not those of a widget of this chart or plan */
    QH_NOT_STARTED = 7,    /* the widget is not started */
    QH_QUEUE_EMPTY = 8,    /* no event waits */
    QH_QUEUE_FULL = 9,     /* QH_QUEUE events wait already, at a post or at a send */
    QH_NO_SUCH_EVENT = 10, /* there is no such event, or its argument is out of range */
    QH_NO_ROOM = 11,       /* no room for the next entry of the trace */
    QH_UNSETTLED = 12,     /* another null step would be needed after QH_NULL_STEPS */
    QH_TEXT_TOO_LONG = 13, /* the text is longer than the bytes lent */
    QH_SLOT_EMPTY = 14     /* a restore meets an empty slot below its owner; no widget that the engine made can be so */
};

/* What a call says besides its answer. */
struct qh_report {
    int32_t place; /* of QH_WRONG_LINE and QH_OUTSIDE_SIZE the line, of QH_RULE_FAILS the rule, else 0 */
    int32_t count; /* entries of the trace, bytes of the text or numbers of the plan; 0 where there is none */
};

/* What a replay says. */
struct qh_replay_report {
    int32_t place;
    int32_t count; /* entries of the last run */
    int32_t done;  /* events that were posted and run */
};

/* ---- entries of a trace: kind and two numbers */

enum qh_entry {
    QH_TAKEN = 1,   /* a transition */
    QH_LEFT = 2,    /* a state */
    QH_ENTERED = 3, /* a state */
    QH_HOLDS = 4,   /* a variable, and its new value */
    QH_SENT = 5,    /* an event, and its argument */
    QH_TOLD = 6     /* a number for the host */
};

/* ---- where what stands in a widget's numbers */

#define QH_WIDGET_STARTED 0                                       /* 1 where it is started */
#define QH_WIDGET_ACTIVE 1                                        /* for each of QH_STATES states 1 where it is active */
#define QH_WIDGET_SLOTS (QH_WIDGET_ACTIVE + QH_STATES)            /* for each state the child it was last left in, or -1 */
#define QH_WIDGET_VARIABLES (QH_WIDGET_SLOTS + QH_STATES)         /* the variables */
#define QH_WIDGET_WAITING (QH_WIDGET_VARIABLES + QH_VARIABLES)    /* how many events wait */
#define QH_WIDGET_QUEUE (QH_WIDGET_WAITING + 1)                   /* event and argument of each place of the queue */

/* ---- charts and plans. A chart that is read keeps the rules; a chart from elsewhere is checked by every call. */

/* The rules: QH_DONE or QH_RULE_FAILS. */
int32_t qh_check(const int32_t *chart, size_t chart_length, struct qh_report *report);

/* Reads a chart text into a chart's numbers. */
int32_t qh_read(const uint8_t *text, size_t text_length, int32_t *chart, size_t chart_length, struct qh_report *report);

/* Writes a chart's text; report->count is its length. */
int32_t qh_write(const int32_t *chart, size_t chart_length, uint8_t *text, size_t text_length, struct qh_report *report);

/* Compiles a chart to its plan; report->count is the plan's length. */
int32_t qh_compile(const int32_t *chart, size_t chart_length, int32_t *plan, size_t plan_length, struct qh_report *report);

/* QH_DONE where the numbers begin with a well-formed plan, else QH_NOT_A_PLAN. */
int32_t qh_examine(const int32_t *plan, size_t plan_length, struct qh_report *report);

/* ---- widgets, over a chart. A widget has QH_WIDGET_NUMBERS numbers; what is lent past them stays as it is. */

/* A widget that is not started. */
int32_t qh_unstarted(int32_t *widget, size_t widget_length, struct qh_report *report);

/* Starts a widget, whatever its numbers held; report->count is the entries of the trace. */
int32_t qh_start(const int32_t *chart, size_t chart_length, int32_t *widget, size_t widget_length, int32_t *trace, size_t trace_length,
                 struct qh_report *report);

/* Runs the event in front of the queue, and the null steps after it; report->count is the entries of the trace. */
int32_t qh_run(const int32_t *chart, size_t chart_length, int32_t *widget, size_t widget_length, int32_t *trace, size_t trace_length,
               struct qh_report *report);

/* Appends an event with its argument to the queue. */
int32_t qh_post(const int32_t *chart, size_t chart_length, int32_t *widget, size_t widget_length, int32_t event, int32_t argument,
                struct qh_report *report);

/* Removes the event in front of the queue. */
int32_t qh_discard(const int32_t *chart, size_t chart_length, int32_t *widget, size_t widget_length, struct qh_report *report);

/* ---- widgets, over a plan: the same calls, faster. A widget may go from a chart to its plan and back. */

int32_t qh_plan_start(const int32_t *plan, size_t plan_length, int32_t *widget, size_t widget_length, int32_t *trace, size_t trace_length,
                      struct qh_report *report);
int32_t qh_plan_run(const int32_t *plan, size_t plan_length, int32_t *widget, size_t widget_length, int32_t *trace, size_t trace_length,
                    struct qh_report *report);
int32_t qh_plan_post(const int32_t *plan, size_t plan_length, int32_t *widget, size_t widget_length, int32_t event, int32_t argument,
                     struct qh_report *report);
int32_t qh_plan_discard(const int32_t *plan, size_t plan_length, int32_t *widget, size_t widget_length, struct qh_report *report);

/* Posts and runs each event of `events`, pairs of event and argument, up to the first refusal; events_length counts numbers. What was
 * done before a refusal stays done. The trace is that of the last run. */
int32_t qh_plan_replay(const int32_t *plan, size_t plan_length, int32_t *widget, size_t widget_length, const int32_t *events,
                       size_t events_length, int32_t *trace, size_t trace_length, struct qh_replay_report *report);

#ifdef __cplusplus
}
#endif

#endif
