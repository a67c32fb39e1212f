/* A host in C: reads a chart, compiles it, runs a widget by its plan and says what happened; keeps the widget and goes on with it later.
 *
 *   host CHART KEPT <COMMANDS
 *
 * CHART is a chart text, KEPT a file for the widget's numbers. Commands, one a line: `EVENT ARGUMENT` posts and runs, `run` runs the next
 * waiting event, `discard` removes it, `save` keeps the widget in KEPT, `load` takes it from there. A refused command is told, and the
 * widget is then as it was before. */
#include <stdio.h>
#include <stdlib.h>
#include <string.h>

#include "../../include/quasarhorn.h"

enum { TRACE_ENTRIES = 1000, TRACE_NUMBERS = TRACE_ENTRIES * QH_ENTRY_NUMBERS };

/* All that the host keeps. */
static int32_t chart[QH_CHART_NUMBERS];
static int32_t plan[QH_PLAN_NUMBERS];
static int32_t widget[QH_WIDGET_NUMBERS];
static int32_t trace[TRACE_NUMBERS];
static size_t plan_length;

static const char *words(int32_t answer) {
    static const char *const all[] = {
        "done",
        "a line has a wrong form",
        "a number is outside its size",
        "the chart fails a rule",
        "the plan is too long",
        "this is no plan",
        "the widget is foreign",
        "the widget is not started",
        "no event waits",
        "the queue is full",
        "there is no such event",
        "no room in the trace",
        "null steps without end",
        "the text is too long",
        "an empty slot",
    };
    return answer >= 0 && answer < (int32_t)(sizeof all / sizeof *all) ? all[answer] : "an unknown answer";
}

/* Says the answer of a call; whether it was done. */
static int done(const char *what, int32_t answer, const struct qh_report *report) {
    if (answer == QH_DONE) return 1;
    printf("%s: refused with %d, %s", what, (int)answer, words(answer));
    if (report->place != 0) printf(" (place %d)", (int)report->place);
    printf("\n");
    return 0;
}

static void say_entry(const int32_t *entry) {
    int a = (int)entry[1], b = (int)entry[2];
    switch (entry[0]) {
    case QH_TAKEN: printf("  transition %d taken\n", a); break;
    case QH_LEFT: printf("  state %d left\n", a); break;
    case QH_ENTERED: printf("  state %d entered\n", a); break;
    case QH_HOLDS: printf("  variable %d is now %d\n", a, b); break;
    case QH_SENT: printf("  event %d sent, argument %d\n", a, b); break;
    case QH_TOLD: printf("  told %d\n", a); break;
    }
}

static void say_trace(const char *what, const struct qh_report *report) {
    printf("%s\n", what);
    for (int32_t i = 0; i < report->count; i++) say_entry(trace + i * QH_ENTRY_NUMBERS);
    int32_t waiting = widget[QH_WIDGET_WAITING];
    if (waiting > 0) printf("  %d waiting\n", (int)waiting);
}

static int read_chart(const char *path) {
    /* one byte more than a text may have, so that a longer one is seen to be too long */
    static uint8_t text[QH_TEXT_BYTES + 1];
    struct qh_report report;
    FILE *file = fopen(path, "rb");
    if (!file) {
        perror(path);
        return 0;
    }
    size_t length = fread(text, 1, sizeof text, file);
    fclose(file);
    if (!done("chart", qh_read(text, length, chart, QH_CHART_NUMBERS, &report), &report)) return 0;
    if (!done("plan", qh_compile(chart, QH_CHART_NUMBERS, plan, QH_PLAN_NUMBERS, &report), &report)) return 0;
    plan_length = (size_t)report.count;
    printf("a chart of %d states and %d events, a plan of %d numbers\n", (int)chart[0], (int)chart[2], (int)report.count);
    return 1;
}

static void run(const char *what) {
    struct qh_report report;
    int32_t answer = qh_plan_run(plan, plan_length, widget, QH_WIDGET_NUMBERS, trace, TRACE_NUMBERS, &report);
    if (done(what, answer, &report)) say_trace(what, &report);
}

static void discard(void) {
    struct qh_report report;
    if (done("discard", qh_plan_discard(plan, plan_length, widget, QH_WIDGET_NUMBERS, &report), &report)) printf("discard\n");
}

static void post_and_run(int event, int argument) {
    struct qh_report report;
    char what[64];
    snprintf(what, sizeof what, "event %d, argument %d", event, argument);
    if (done(what, qh_plan_post(plan, plan_length, widget, QH_WIDGET_NUMBERS, event, argument, &report), &report)) run(what);
}

static void save(const char *path) {
    FILE *file = fopen(path, "wb");
    if (!file || fwrite(widget, sizeof *widget, QH_WIDGET_NUMBERS, file) != QH_WIDGET_NUMBERS) perror(path);
    else printf("save\n");
    if (file) fclose(file);
}

/* Whatever the file holds: a call refuses what is no widget of this plan. */
static void load(const char *path) {
    FILE *file = fopen(path, "rb");
    if (!file || fread(widget, sizeof *widget, QH_WIDGET_NUMBERS, file) != QH_WIDGET_NUMBERS) perror(path);
    else printf("load\n");
    if (file) fclose(file);
}

int main(int count, char **arguments) {
    if (count != 3) {
        fprintf(stderr, "host CHART KEPT <COMMANDS\n");
        return 2;
    }
    if (!read_chart(arguments[1])) return 1;
    struct qh_report report;
    int32_t answer = qh_plan_start(plan, plan_length, widget, QH_WIDGET_NUMBERS, trace, TRACE_NUMBERS, &report);
    if (!done("start", answer, &report)) return 1;
    say_trace("start", &report);
    char line[200];
    while (fgets(line, sizeof line, stdin)) {
        int event, argument;
        line[strcspn(line, "\n")] = '\0';
        if (sscanf(line, "%d %d", &event, &argument) == 2) post_and_run(event, argument);
        else if (strcmp(line, "run") == 0) run("run");
        else if (strcmp(line, "discard") == 0) discard();
        else if (strcmp(line, "save") == 0) save(arguments[2]);
        else if (strcmp(line, "load") == 0) load(arguments[2]);
        else printf("no such command: %s\n", line);
    }
    return 0;
}
