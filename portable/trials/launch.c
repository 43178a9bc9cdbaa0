/* portable/trials/launch.c: starts NODE SCRIPT with its own words where the environment has
 * settings of faults (faults.js), and the program OTHER where it has none. Where a process waits
 * at SOCKET (forks.js) and sees the same disks, DISKS, that one makes the run instead: of those
 * without such settings only if IN_FORKS is 1, since a signal to this process doesn't reach a
 * fork. What was to be loaded in front of the C library goes: it would stand before node too.
 * Linked statically, this takes no such thing itself. */
#define _GNU_SOURCE
#include <signal.h>
#include <stdlib.h>
#include <string.h>
#include <sys/socket.h>
#include <sys/stat.h>
#include <sys/un.h>
#include <sys/wait.h>
#include <unistd.h>
#include "forks.h"

extern char **environ;

static char texts[MOST];
static size_t used;

/* Puts the texts behind those that are there, and answers how many, or -1 without room for them. */
static int put(char **more) {
  int count = 0;
  for (; more[count]; count++) {
    size_t length = strlen(more[count]) + 1;
    if (length > MOST - used) return -1;
    memcpy(texts + used, more[count], length);
    used += length;
  }
  return count;
}

static int has_sent(int server, char **words) {
  char control[CMSG_SPACE(FILES * sizeof(int))] = {0}, here[1000], *folder[] = {here, NULL};
  int files[FILES] = {0, 1, 2}, has_room = getcwd(here, sizeof here) && put(folder) == 1;
  int count = put(words), settings = put(environ);
  struct asked asked = {.words = count, .settings = settings, .mask = umask(0), .user = getuid(),
                        .group = getgid()};
  struct iovec parts[] = {{&asked, sizeof asked}, {texts, used}};
  struct msghdr message = {.msg_iov = parts, .msg_iovlen = 2, .msg_control = control,
                           .msg_controllen = sizeof control};
  struct cmsghdr *head = CMSG_FIRSTHDR(&message);
  umask(asked.mask);
  getrlimit(RLIMIT_FSIZE, &asked.size);
  getrlimit(RLIMIT_NOFILE, &asked.open);
  *head = (struct cmsghdr){.cmsg_level = SOL_SOCKET, .cmsg_type = SCM_RIGHTS,
                           .cmsg_len = CMSG_LEN(sizeof files)};
  memcpy(CMSG_DATA(head), files, sizeof files);
  return has_room && count > 0 && settings >= 0 && sendmsg(server, &message, MSG_NOSIGNAL) > 0;
}

/* Whether it sees the same disks as the process that waits: a path might lead elsewhere there. */
static int is_beside(void) {
  char here[100] = {0};
  return readlink("/proc/self/ns/mnt", here, sizeof here - 1) > 0 && !strcmp(here, DISKS);
}

/* Ends as the run in a fork has. Where none is made, it comes back. */
static void in_fork(char **words) {
  struct sockaddr_un place = {.sun_family = AF_UNIX, .sun_path = SOCKET};
  int status, server = socket(AF_UNIX, SOCK_SEQPACKET | SOCK_CLOEXEC, 0);
  if (!is_beside() || connect(server, (struct sockaddr *)&place, sizeof place) ||
      !has_sent(server, words)) {
    close(server);
    return;
  }
  if (recv(server, &status, sizeof status, 0) != sizeof status) _exit(126);
  if (!WIFSIGNALED(status)) _exit(WEXITSTATUS(status));
  signal(WTERMSIG(status), SIG_DFL);
  raise(WTERMSIG(status));
  _exit(126);
}

int main(int count, char **words) {
  char *all[count + 2];
  int has_faults = getenv("FAULT_KINDS") != NULL;
  unsetenv("LD_PRELOAD");
  if (has_faults || IN_FORKS) in_fork(words);
  if (!has_faults) {
    execv(OTHER, words);
    return 127;
  }
  all[0] = NODE;
  all[1] = SCRIPT;
  for (int at = 1; at <= count; at++) all[at + 1] = words[at];
  execv(NODE, all);
  return 127;
}
