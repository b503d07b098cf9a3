/* The part of the tool rme that has to do with logs; no part of the library. */
#ifndef TOOL_LOG_H
#define TOOL_LOG_H

/* Obeys `rme log WORD..`; answers the tool's status, or -1 where the words are wrong. */
int log_command(int count, char **word);

#endif
