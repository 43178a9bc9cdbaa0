/* portable/trials/forks.c: of node, an addon for forks.js. A process of node that has all loaded
 * waits at a socket; for each run that launch.c asks for there, it forks, and the child runs the
 * program in the folder, with the words, the settings, the standard streams, the user, the umask
 * and the limits of who asks on how long files are and how many are open. So a run is a process of
 * its own, that can be killed, without a start of node. */
#define _GNU_SOURCE
#include <dlfcn.h>
#include <grp.h>
#include <node_api.h>
#include <poll.h>
#include <pthread.h>
#include <signal.h>
#include <stdio.h>
#include <stdlib.h>
#include <string.h>
#include <sys/mman.h>
#include <sys/resource.h>
#include <sys/socket.h>
#include <sys/stat.h>
#include <sys/syscall.h>
#include <sys/un.h>
#include <sys/wait.h>
#include <unistd.h>
#include "forks.h"

static struct asked asked;
static char texts[MOST];
static int is_fork;

/* It stands before the C library's. node's threads, which wait for such signals, are in no fork;
 * but what waits is noted in the condition itself, and a second signal would wait until the first
 * was seen. What a thread was asked to do, whoever asks does itself. */
int pthread_cond_signal(pthread_cond_t *condition) {
  static int (*its)(pthread_cond_t *);
  if (!its) its = dlvsym(RTLD_NEXT, "pthread_cond_signal", "GLIBC_2.3.2"); /* of two, on x86-64 */
  if (!its) its = dlsym(RTLD_NEXT, "pthread_cond_signal");
  return is_fork ? 0 : its(condition);
}

/* What is asked for on this connection: false where nothing comes. */
static int receive(int connection, int files[FILES]) {
  char control[CMSG_SPACE(FILES * sizeof(int))];
  struct iovec parts[] = {{&asked, sizeof asked}, {texts, sizeof texts}};
  struct msghdr message = {.msg_iov = parts, .msg_iovlen = 2, .msg_control = control,
                           .msg_controllen = sizeof control};
  struct cmsghdr *head;
  if (recvmsg(connection, &message, 0) < (ssize_t)sizeof asked) return 0;
  head = CMSG_FIRSTHDR(&message);
  if (!head || head->cmsg_len != CMSG_LEN(FILES * sizeof(int))) return 0;
  memcpy(files, CMSG_DATA(head), FILES * sizeof(int));
  return 1;
}

/* Takes the place of who asks. */
static int take_place(const int files[FILES]) {
  for (int at = 0; at < FILES; at++) {
    if (dup2(files[at], at) < 0) return 0;
    close(files[at]);
  }
  umask(asked.mask);
  return !chdir(texts) && !setrlimit(RLIMIT_FSIZE, &asked.size) &&
         !setrlimit(RLIMIT_NOFILE, &asked.open) && !setgroups(0, NULL) && !setgid(asked.group) &&
         !setuid(asked.user);
}

/* Waits for the child, and tells how it ended. It is killed where who asked for it is gone. */
static void wait_for(pid_t child, int connection) {
  int status;
  struct pollfd ends[] = {{.fd = connection},
                          {.fd = syscall(SYS_pidfd_open, child, 0), .events = POLLIN}};
  while (poll(ends, 2, -1) < 0) continue;
  if (ends[0].revents) kill(child, SIGKILL);
  waitpid(child, &status, 0);
  send(connection, &status, sizeof status, MSG_NOSIGNAL);
  _exit(0);
}

/* Has forks keep all memory: of its own, V8 tells the system that it has no part in them. */
static void keep_memory(void) {
  unsigned long start, end;
  FILE *maps = fopen("/proc/self/maps", "r");
  while (maps && fscanf(maps, "%lx-%lx%*[^\n]", &start, &end) == 2)
    madvise((void *)start, end - start, MADV_DOFORK); /* what refuses it has no such mark */
  if (maps) fclose(maps);
}

/* In the one process, it never comes back; in each child it does, as what was asked for. */
static void wait_at(int server) {
  int files[FILES];
  keep_memory();
  signal(SIGCHLD, SIG_IGN); /* nobody waits for those that wait */
  for (;;) {
    int connection = accept4(server, NULL, NULL, SOCK_CLOEXEC);
    if (connection >= 0 && fork() == 0) {
      pid_t child;
      signal(SIGCHLD, SIG_DFL);
      close(server);
      child = fork();
      if (child != 0) wait_for(child, connection);
      if (!receive(connection, files) || !take_place(files)) _exit(126);
      close(connection);
      is_fork = 1;
      return;
    }
    close(connection);
  }
}

/* serve(PATH): the words and settings of a run, as buffers, first the words; how many these are;
 * and the number of the process. */
static napi_value serve(napi_env env, napi_callback_info info) {
  struct sockaddr_un place = {.sun_family = AF_UNIX};
  size_t count = 1, length;
  napi_value given, all, text;
  int server = socket(AF_UNIX, SOCK_SEQPACKET | SOCK_CLOEXEC, 0);
  napi_get_cb_info(env, info, &count, &given, NULL, NULL);
  napi_get_value_string_utf8(env, given, place.sun_path, sizeof place.sun_path, &length);
  if (bind(server, (struct sockaddr *)&place, sizeof place) || chmod(place.sun_path, 0777) ||
      listen(server, 100)) {
    napi_throw_error(env, NULL, "no socket");
    return NULL;
  }
  wait_at(server);
  napi_create_array(env, &all);
  char *at = texts + strlen(texts) + 1;
  for (unsigned number = 0; number < asked.words + asked.settings; number++) {
    napi_create_buffer_copy(env, strlen(at), at, NULL, &text);
    napi_set_element(env, all, number, text);
    at += strlen(at) + 1;
  }
  napi_create_uint32(env, asked.words, &text);
  napi_set_named_property(env, all, "words", text);
  napi_create_uint32(env, getpid(), &text);
  napi_set_named_property(env, all, "process", text);
  return all;
}

/* end(STATUS): ends the child at once. node would wait for threads, which a fork doesn't have. */
static napi_value end(napi_env env, napi_callback_info info) {
  size_t count = 1;
  napi_value given;
  int status = 70;
  napi_get_cb_info(env, info, &count, &given, NULL, NULL);
  napi_get_value_int32(env, given, &status);
  _exit(status);
}

NAPI_MODULE_INIT() {
  napi_value function;
  napi_create_function(env, "serve", NAPI_AUTO_LENGTH, serve, NULL, &function);
  napi_set_named_property(env, exports, "serve", function);
  napi_create_function(env, "end", NAPI_AUTO_LENGTH, end, NULL, &function);
  napi_set_named_property(env, exports, "end", function);
  return exports;
}
