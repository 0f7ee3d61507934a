/* What goes between the player and a process that it plays: an order is a call to make, an answer
 * what came of it. Numbers of processes and signals are those of the schedule. */
#ifndef ORDER_H
#define ORDER_H

#include <stdbool.h>
#include <stdint.h>
#include <sys/types.h>

enum {
  PROCESSES = 24,
  DESCRIPTORS = 16,
  PAGES = 16,
  PAGE_BYTES = 64,
  SLOTS = 8,
  FRAMES = 4,
  SIGNALS = 40,
  QUEUED = 64,
  PIPE_BYTES = 512,
  NUMBERS = 4,
};

/* Channels and the probing pipe lie above all descriptors of a schedule. */
enum { PROBE_READ = 90, PROBE_WRITE = 91, OWN_SIDES = 100, PLAYER_SIDES = 200 };

/* A number of no process: it is greater than the greatest that the host gives. */
enum { NOBODY = 4194304 + 1 };

enum call {
  MAP,
  UNMAP,
  PROTECT,
  STORE,
  LOAD,
  FORK,
  EXIT,
  WAITPID,
  GETPID,
  GETPPID,
  SETUID,
  SETEUID,
  SETGID,
  SETEGID,
  PIPE,
  DUP,
  DUP2,
  CLOSE,
  SET_NONBLOCK,
  READ,
  WRITE,
  KILL,
  SIGQUEUE,
  SIGACTION,
  SIGPROCMASK,
  SIGPENDING,
  SIGRETURN,
  DELIVER,
  ANSWER,
  INVENTORY,
};

/* The word choices of sigprocmask and sigaction, as numbers. */
enum { BLOCK, UNBLOCK, SET };
enum { DEFAULT, IGNORE, CATCH };

struct order {
  enum call call;
  long numbers[NUMBERS];
  pid_t target;
  unsigned count;
  unsigned char bytes[PAGE_BYTES];
};

enum verdict { ANSWERED, WAITS, NOT_DELIVERABLE, FRAMES_FULL, ANSWERED_BEFORE };

/* Rules of the profile that an answer had to be made by, since the host has others; and one of the
 * host's that the standard has not. */
enum {
  PIPE_HOLDS_512 = 1,
  FAULT_IS_FIRST = 2,
  FIRST_TAKES_NONE = 4,
  ENDED_CHILDREN_STAY = 8,
  ONE_ENTRY_IS_DROPPED = 16,
  STANDARD_HAS_NO_VALUE = 32,
  KILL_WAITS = 64,
  SAME_ID = 128,
  PENDING_ONCE = 256,
};

struct answer {
  enum verdict verdict;
  long value;
  pid_t pid;
  ino_t pipe;
  unsigned rules;
};

/* The host's numbers of the processes, for all of them to read; 0 where there is none. */
struct host_numbers {
  pid_t player;
  pid_t of[PROCESSES + 1];
};

struct registers {
  long ret;
  long slots[SLOTS];
};

struct frame {
  struct registers registers;
  uint64_t mask;
};

struct descriptor {
  bool is_open, writes, is_nonblocking;
  int description;
  ino_t pipe;
};

struct page {
  bool is_mapped, is_writable;
  unsigned char bytes[PAGE_BYTES];
};

struct action {
  int kind;
  uint64_t mask;
};

struct entry {
  int signal;
  long value;
};

/* All that a process has, as it tells at the end. */
struct inventory {
  int parent;
  unsigned ids[6];
  struct registers registers;
  uint64_t mask, pending;
  int depth, queued;
  struct frame frames[FRAMES];
  struct entry queue[QUEUED];
  struct descriptor descriptors[DESCRIPTORS];
  struct page pages[PAGES];
  struct action actions[SIGNALS];
};

#endif
