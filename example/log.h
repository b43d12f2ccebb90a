/* A line of the log as an event. The lines are described in log.txt. */
#ifndef LOG_H
#define LOG_H

#include <stdio.h>

#include "driver.h"

enum what { JOIN, LEAVE, ONCE, MESSAGE, REQUEST, SEND, DROP, ROOM, IDLE, DAMAGE };

/* What happens; which of the parts count is the line's. */
struct event {
    enum what what;
    enum kind kind;
    uint32_t entry, other, address;
    uint8_t priority, priorities;
    bool loop_back;
    struct bytes data;
};

enum { LINE_MAX_LENGTH = 200 };

enum line { END_OF_LOG, EMPTY_LINE, BAD_LINE, EVENT_LINE };

/*
 * Reads the next line. It is an event, or nothing but a comment, or it is not understood,
 * and then `why` says why. An event's text is the line without what ends it.
 */
enum line read_event(FILE *log, struct event *event, char text[LINE_MAX_LENGTH + 1],
                     const char **why);

#endif
