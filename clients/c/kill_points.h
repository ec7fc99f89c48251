/* Compiled into the client for check_kills: each point where a process may end calls kill_point, and the session file
   is rewritten often. */
#ifndef KILL_POINTS_H
#define KILL_POINTS_H

void kill_point(const char *name);
#define FEMEM_POINT(name) kill_point(name)
#define FEMEM_COMPACT_FROM 1500

#endif
