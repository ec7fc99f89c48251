/* A server that is away, or that this process has no right to. */
#define _POSIX_C_SOURCE 200809L
#include "cli.h"

#include <errno.h>
#include <grp.h>
#include <libgen.h>
#include <pwd.h>
#include <string.h>
#include <sys/stat.h>
#include <unistd.h>

/* Milliseconds. A server's folder belongs to root for a moment while it is made again. */
enum { PAUSE = 50, DENIED = 1000 };

static bool is_denied(int why) { return why == EACCES || why == EPERM; }

/* The folder of a path, in `room`. */
static char *folder_of(const char *path, char *room, size_t size) {
  snprintf(room, size, "%s", path);
  return dirname(room);
}

/* Whether a server may come to the path: nobody listens there, or it is missing and the folder above its folder is not. */
static bool may_come(const char *path, int why) {
  char room[200];
  struct stat there;
  if (why == ECONNREFUSED) return stat(path, &there) != 0 || S_ISSOCK(there.st_mode);
  return is_denied(why) || (why == ENOENT && stat(dirname(folder_of(path, room, sizeof room)), &there) == 0);
}

bool tries_again(command_line *cli, int why, int64_t began) {
  int64_t most = cli->given.reconnect;
  if (is_denied(why) && (most < 0 || most > DENIED)) most = DENIED;
  if (!may_come(cli->given.socket, why) || (most >= 0 && left(began + most) == 0)) return false;
  cli->stopped = nap(cli->stop, PAUSE);
  return !cli->stopped;
}

void wait_for_path(command_line *cli) {
  int64_t began = now();
  struct stat there;
  while (stat(cli->given.socket, &there) != 0 && errno == ENOENT && tries_again(cli, ENOENT, began)) continue;
}

/* What of the path can be looked at: itself, or the deepest folder that leads there. */
static bool look_at_end(const char *path, struct stat *there) {
  char rooms[2][200];
  for (int at = 0; stat(path, there) != 0; at = !at) {
    const char *folder = folder_of(path, rooms[at], sizeof rooms[at]);
    if (strcmp(folder, path) == 0) return false;
    path = folder;
  }
  return true;
}

static int fail_without_right(const command_line *cli) {
  struct stat there;
  const char *path = cli->given.socket;
  if (!look_at_end(path, &there)) return fail(cli, NO_RIGHT, "may not use %s", path);
  bool is_folder = S_ISDIR(there.st_mode);
  const struct group *group = getgrgid(there.st_gid);
  const struct passwd *own = getpwuid(geteuid());
  const char *name = own ? own->pw_name : "NAME";
  if (group && there.st_mode & (is_folder ? S_IXGRP : S_IWGRP))
    return fail(cli, NO_RIGHT, "may not use %s: members of its group %s may ('adduser %s %s', and a new login)", path,
                group->gr_name, name, group->gr_name);
  const struct passwd *owner = getpwuid(there.st_uid);
  return fail(cli, NO_RIGHT, "may not use %s: its owner %s may", path, owner ? owner->pw_name : "and root");
}

int fail_to_reach(const command_line *cli, int why) {
  if (cli->stopped) return NO_SERVER; /* a signal ends it */
  if (is_denied(why)) return fail_without_right(cli);
  struct stat there;
  bool is_other = why == ENOTSOCK ||
                  (why == ECONNREFUSED && stat(cli->given.socket, &there) == 0 && !S_ISSOCK(there.st_mode));
  return fail(cli, NO_SERVER, "no server at %s: %s (--socket names another one)", cli->given.socket,
              is_other ? "it is no socket" : strerror(why));
}
