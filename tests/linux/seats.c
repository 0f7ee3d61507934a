#include "seats.h"

#include <poll.h>
#include <stdio.h>
#include <stdlib.h>
#include <string.h>
#include <sys/mman.h>
#include <sys/prctl.h>
#include <sys/resource.h>
#include <sys/socket.h>
#include <sys/syscall.h>
#include <sys/wait.h>
#include <unistd.h>

#include "process.h"

#ifndef SYS_pidfd_open
#define SYS_pidfd_open 434
#define SYS_pidfd_send_signal 424
#endif

enum { PATIENCE = 20000 };

struct seat seats[PROCESSES + 1];
static struct host_numbers *numbers;

/* A handle names one process for ever, also where the host gives its number to another. */
static int handle_of(pid_t pid) { return (int)syscall(SYS_pidfd_open, pid, 0); }

static void kill_by(int handle) { syscall(SYS_pidfd_send_signal, handle, SIGKILL, 0, 0); }

/* Whether the host has what the player needs. What is to be waited for becomes its own child, and
 * there is a table of the processes' numbers for all to read. */
bool can_play(void) {
  const struct rlimit none = {0, 0};
  int handle = handle_of(getpid());
  struct rlimit files;
  if (handle < 0 || getrlimit(RLIMIT_NOFILE, &files)) return false;
  close(handle);
  numbers = mmap(0, sizeof *numbers, PROT_READ | PROT_WRITE, MAP_SHARED | MAP_ANONYMOUS, -1, 0);
  if (numbers == MAP_FAILED || files.rlim_cur <= PLAYER_SIDES + PROCESSES) return false;
  numbers->player = getpid();
  self.numbers = numbers;
  return !setrlimit(RLIMIT_CORE, &none) && !prctl(PR_SET_CHILD_SUBREAPER, 1, 0, 0, 0);
}

/* Whether processes may set their ids, and signal those of others, as user 0 does in a schedule. */
bool can_set_ids(void) {
  siginfo_t info;
  int status = 1;
  pid_t child = fork();
  if (child == 0) _exit(geteuid() || setgid(5) || seteuid(5) || seteuid(0) || setuid(5));
  if (child < 0 || waitid(P_PID, (id_t)child, &info, WEXITED | WNOWAIT)) return false;
  bool may_signal = kill(child, 0) == 0;
  return waitpid(child, &status, 0) == child && status == 0 && may_signal;
}

void give_up(const char *why) {
  printf("broken: %s\n", why);
  fflush(stdout);
  finish();
  exit(1);
}

static void place_pair(const int *pair, int first, int second) {
  if (dup2(pair[0], first) < 0 || dup2(pair[1], second) < 0) give_up("no place for a channel");
  close(pair[0]);
  close(pair[1]);
}

static void open_channels(void) {
  int pair[2];
  for (int number = 1; number <= PROCESSES; number++) {
    if (socketpair(AF_UNIX, SOCK_SEQPACKET, 0, pair)) give_up("no channel");
    place_pair(pair, OWN_SIDES + number, PLAYER_SIDES + number);
  }
  if (pipe(pair)) give_up("no pipe");
  place_pair(pair, PROBE_READ, PROBE_WRITE);
}

/* Process 1: it has no descriptors that a schedule sees, no signal reaches it on the way, and the
 * orphans among its descendants become its own children. */
static void become_first(void) {
  struct rlimit files;
  for (int number = 0; number < DESCRIPTORS; number++) close(number);
  for (int number = 1; number <= PROCESSES; number++) close(PLAYER_SIDES + number);
  block_all();
  for (int number = 1; number < SIGNALS; number++)
    if (is_known(number)) signal(host_signal(number), SIG_DFL);
  getrlimit(RLIMIT_NOFILE, &files);
  files.rlim_cur = DESCRIPTORS;
  if (setrlimit(RLIMIT_NOFILE, &files) || prctl(PR_SET_CHILD_SUBREAPER, 1, 0, 0, 0)) _exit(1);
  setsid();
  self.number = 1;
  reply((struct answer){.pid = getpid()});
  serve();
}

/* The other processes of the start are forked by process 1, which then has answered nothing. */
void begin(int count) {
  struct answer answer;
  memset(seats, 0, sizeof seats);
  memset(numbers->of, 0, sizeof numbers->of);
  open_channels();
  pid_t first = fork();
  if (first == 0) become_first();
  for (int number = 1; number <= PROCESSES; number++) close(OWN_SIDES + number);
  attend(1);
  for (int child = 2; child <= count; child++) {
    ask(1, &(struct order){.call = FORK, .numbers = {child}}, &answer, sizeof answer);
    attend(child);
  }
  ask(1, &(struct order){.call = ANSWER}, &answer, sizeof answer);
}

/* That a process has ended is known while its parent is being told, which holds the host's lock on
 * the tree of processes; this waits for that lock. */
static enum outcome note_end(int number) {
  siginfo_t info;
  seats[number].has_ended = true;
  waitid(P_ALL, 0, &info, WEXITED | WNOHANG | WNOWAIT);
  return ENDED;
}

static enum outcome hear(int number, void *told, size_t size) {
  int handle = seats[number].pid ? seats[number].handle : -1;
  struct pollfd both[] = {{PLAYER_SIDES + number, POLLIN, 0}, {handle, POLLIN, 0}};
  if (poll(both, 2, PATIENCE) <= 0) give_up("a process does not answer");
  if (!(both[0].revents & POLLIN)) return note_end(number);
  if (recv(PLAYER_SIDES + number, told, size, 0) != (ssize_t)size) give_up("half an answer");
  return REPLIED;
}

/* Takes a process in that has just been forked, and says so. */
void attend(int number) {
  struct answer answer;
  if (hear(number, &answer, sizeof answer) != REPLIED) give_up("a child has not begun");
  int handle = handle_of(answer.pid);
  if (handle < 0) give_up("a child is not there");
  seats[number] = (struct seat){.pid = answer.pid, .handle = handle};
  numbers->of[number] = answer.pid;
}

/* Lets go of a process that was waited for. */
void leave(int number) {
  close(seats[number].handle);
  seats[number] = (struct seat){0};
  numbers->of[number] = 0;
}

enum outcome ask(int number, const struct order *order, void *told, size_t size) {
  if (send(PLAYER_SIDES + number, order, sizeof *order, MSG_NOSIGNAL) != sizeof *order)
    give_up("a process takes no order");
  return hear(number, told, size);
}

enum outcome end_by_kill(int number) {
  struct answer answer;
  kill_by(seats[number].handle);
  return hear(number, &answer, sizeof answer);
}

/* Without their channels all processes end; those that do not are killed. */
void finish(void) {
  for (int number = 1; number <= PROCESSES; number++) {
    close(PLAYER_SIDES + number);
    if (!seats[number].pid) continue;
    kill_by(seats[number].handle);
    close(seats[number].handle);
  }
  close(PROBE_READ);
  close(PROBE_WRITE);
  while (waitpid(-1, 0, 0) > 0) continue;
}
