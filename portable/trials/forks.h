/* portable/trials/forks.h: what launch.c asks forks.c for: behind this stand the folder, the words
 * and the settings, each ended by a zero byte; with it go the standard streams. */
#include <sys/resource.h>
#include <sys/types.h>

enum { FILES = 3, MOST = 100000 };

struct asked {
  unsigned words, settings;
  mode_t mask;
  uid_t user;
  gid_t group;
  struct rlimit size, open;
};
