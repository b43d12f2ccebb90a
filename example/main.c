/*
 * An example driver over gomxeli: opens the registries, reads a log of what happens on a
 * bus and among its endpoints, and prints what it does.
 *
 * Exit status: 0; 1 where a line of the log was not understood; 2 where the log could not
 * be read or the output not written.
 */
#include <stdio.h>
#include <string.h>

#include "driver.h"
#include "log.h"

/* The tasks that were woken get their turn. */
static void run_tasks(void)
{
    filter_task();
    transmit_task();
}

static void happen(const struct event *event)
{
    switch (event->what) {
    case JOIN:
        join(event->kind, event->entry, event->address);
        break;
    case LEAVE:
        leave(event->kind, event->entry);
        break;
    case ONCE:
        leave_when_heard(event->entry, event->other);
        break;
    case MESSAGE:
        message_in(event->address, event->loop_back, &event->data);
        break;
    case REQUEST:
        request_in(event->address, event->loop_back, &event->data);
        break;
    case SEND:
        send_transfer(event->kind, event->entry, event->priority, &event->data);
        break;
    case DROP:
        drop_transfers(event->kind, event->entry);
        break;
    case ROOM:
        room_for(event->priorities);
        break;
    case IDLE:
        run_tasks();
        break;
    case DAMAGE:
        damage(event->kind);
        break;
    }
}

/* Does what the log says; the number of lines that were not understood. */
static unsigned run_log(FILE *log)
{
    static struct event event;
    static char text[LINE_MAX_LENGTH + 1];
    const char *why;
    unsigned number = 0, bad = 0;
    for (;;) {
        number++;
        switch (read_event(log, &event, text, &why)) {
        case END_OF_LOG:
            return bad;
        case EMPTY_LINE:
            break;
        case BAD_LINE:
            bad++;
            printf("line %u is not understood: %s\n", number, why);
            break;
        case EVENT_LINE:
            printf("%s\n", text);
            happen(&event);
            break;
        }
    }
}

int main(int argc, char **argv)
{
    FILE *log = argc == 2 ? fopen(argv[1], "r") : NULL;
    if (log == NULL) {
        fprintf(stderr, "usage: driver LOG\n");
        return 2;
    }
    open_all();
    unsigned bad = run_log(log);
    bool broken = ferror(log) != 0;
    fclose(log);
    if (broken || fflush(stdout) != 0 || ferror(stdout))
        return 2;
    return bad == 0 ? 0 : 1;
}
