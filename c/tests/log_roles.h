/* What the processes of log_kill_test do, and what has to hold of the folder whenever one of them is killed. */
#ifndef LOG_ROLES_H
#define LOG_ROLES_H

#include "log_folder.h"
#include "log_steps.h"

enum { SENDERS = 2 };

/* What the callers have been answered, which no kill takes back. */
struct log_duty {
    uint64_t created, stored[SENDERS]; /* stored: the number of the last append that was answered */
    uint64_t dealt, kept;              /* by the named reader: how many messages it has dealt with, and has kept that it has */
    uint64_t first;                    /* what a drop has answered */
};
struct log_shared {
    struct log_duty duty;
    struct log_steps steps;
};

enum log_role { CREATE, SEND, SEND_NEXT, SEND_OTHER, READ, DROP, LOG_ROLES };

extern const char *const log_role_names[LOG_ROLES];
extern struct log_shared *log_shared;
extern uint64_t cap, messages;
extern struct log_files files;

/* Plays a role to its end. */
void log_play(enum log_role role);
/* What has to hold at every instant; and after a whole run. */
void log_examine(struct log_view *view);
void log_examine_end(enum log_role role);
/* Others, who come by beside the dead: one who sends past a seam; one who reads; one who sends, reads all under the reader's name, drops
 * and sends; and the same without the reading. */
enum log_visitor { SENDS, READS, DROPS, PASSES, LOG_VISITORS };
void log_visit(enum log_visitor visitor);

#endif
