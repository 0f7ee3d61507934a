#include "steps.h"

#include <signal.h>
#include <stdio.h>
#include <string.h>

#include "seats.h"

ino_t pipes[PIPES];

struct step {
  int process;
  struct order order;
};

static const char *const NAMES[] = {
    [MAP] = "map",
    [UNMAP] = "unmap",
    [PROTECT] = "protect",
    [STORE] = "store",
    [LOAD] = "load",
    [FORK] = "fork",
    [EXIT] = "exit",
    [WAITPID] = "waitpid",
    [GETPID] = "getpid",
    [GETPPID] = "getppid",
    [SETUID] = "setuid",
    [SETEUID] = "seteuid",
    [SETGID] = "setgid",
    [SETEGID] = "setegid",
    [PIPE] = "pipe",
    [DUP] = "dup",
    [DUP2] = "dup2",
    [CLOSE] = "close",
    [SET_NONBLOCK] = "set_nonblock",
    [READ] = "read",
    [WRITE] = "write",
    [KILL] = "kill",
    [SIGQUEUE] = "sigqueue",
    [SIGACTION] = "sigaction",
    [SIGPROCMASK] = "sigprocmask",
    [SIGPENDING] = "sigpending",
    [SIGRETURN] = "sigreturn",
    [DELIVER] = "deliver",
    [ANSWER] = "answer",
};

static enum call call_of(const char *name) {
  for (enum call call = MAP; call < INVENTORY; call++)
    if (strcmp(NAMES[call], name) == 0) return call;
  give_up("no such call");
}

static unsigned bytes_of(const char *digits, unsigned char *bytes) {
  unsigned count = 0;
  while (count < PAGE_BYTES && sscanf(digits + 2 * count, "%2hhx", &bytes[count]) == 1) count++;
  return count;
}

static bool is_number(long number) { return number >= 1 && number <= PROCESSES; }

/* Whom a call is about: no process but those of the schedule. */
static pid_t target_of(const struct order *order) {
  bool is_there = is_number(order->numbers[0]) && seats[order->numbers[0]].pid;
  return is_there ? seats[order->numbers[0]].pid : NOBODY;
}

static struct step step_of(const char *line) {
  char name[16], digits[2 * PAGE_BYTES + 1] = "";
  struct step step = {0};
  long *numbers = step.order.numbers;
  int found = sscanf(line, "%d %15s %ld %ld %ld %ld", &step.process, name, &numbers[0], &numbers[1],
                     &numbers[2], &numbers[3]);
  if (found < 2) give_up("no step");
  step.order.call = call_of(name);
  step.order.target = target_of(&step.order);
  if (step.order.call == STORE && sscanf(line, "%*d %*s %*d %128s", digits) == 1)
    step.order.count = bytes_of(digits, step.order.bytes);
  return step;
}

/* Why no call is made at all. */
static const char *refusal_of(const struct step *step) {
  const struct order *order = &step->order;
  if (!is_number(step->process) || !seats[step->process].pid) return "no N1";
  if (seats[step->process].has_ended) return "no N2";
  if (order->call == FORK && !is_number(order->numbers[0])) return "no N3";
  if (order->call == FORK && seats[order->numbers[0]].pid) return "no N4";
  bool is_kill = order->call == DELIVER && order->numbers[0] == SIGKILL;
  if (seats[step->process].kill_waits != is_kill) return is_kill ? "no N10" : "no N7";
  return 0;
}

/* What the player has to know of what was done. */
static void follow(const struct order *order, const struct answer *answer) {
  long first = order->numbers[0];
  if (order->call == FORK && answer->value == first) {
    attend((int)first);
    if (seats[first].pid != answer->pid) give_up("a child of another number");
  }
  if (order->call == WAITPID && answer->value > 0) leave((int)first);
  if (order->call == PIPE && answer->value == 0 && first >= 0 && first < PIPES)
    pipes[first] = answer->pipe;
  bool sends = order->call == KILL || order->call == SIGQUEUE;
  if (sends && order->numbers[1] == SIGKILL && answer->value == 0 && first > 1)
    seats[first].kill_waits = !seats[first].has_ended;
}

static void print_answer(const struct answer *answer) {
  static const char *const REFUSALS[] = {
      [WAITS] = "no N9", [NOT_DELIVERABLE] = "no N10", [FRAMES_FULL] = "no N11"};
  if (answer->verdict == ANSWERED)
    printf("ok %ld|%u\n", answer->value, answer->rules);
  else
    printf("%s|%u\n", REFUSALS[answer->verdict], answer->rules);
}

void make_step(const char *line) {
  struct answer answer;
  struct step step = step_of(line);
  const struct order *order = &step.order;
  const char *refusal = refusal_of(&step);
  if (refusal) {
    printf("%s|0\n", refusal);
    return;
  }
  bool is_kill = order->call == DELIVER && order->numbers[0] == SIGKILL;
  enum outcome outcome =
      is_kill ? end_by_kill(step.process) : ask(step.process, order, &answer, sizeof answer);
  if (outcome == ENDED) {
    puts("ended|0");
    return;
  }
  if (answer.verdict == ANSWERED) follow(order, &answer);
  print_answer(&answer);
}
