/* The orders that a process obeys, one after another. */
#include "process.h"

#include <errno.h>
#include <fcntl.h>
#include <stdlib.h>
#include <sys/socket.h>
#include <sys/wait.h>
#include <unistd.h>

#include "pages.h"

struct process self;

const long MUST_WAIT = -1000;
/* An answer that no call has: a process of no number of the schedule. */
static const long UNKNOWN = -1001;

int number_of(pid_t pid) {
  if (pid == self.numbers->player) return 0;
  for (int number = 1; number <= PROCESSES; number++)
    if (self.numbers->of[number] == pid) return number;
  return (int)UNKNOWN;
}

static void tell(const void *told, size_t size) {
  if (send(OWN_SIDES + self.number, told, size, MSG_NOSIGNAL) != (ssize_t)size) _exit(1);
}

void reply(struct answer answer) {
  answer.rules = self.rules;
  self.rules = 0;
  tell(&answer, sizeof answer);
}

/* The child goes on in the same loop, under its own number, and says who it is. */
static long fork_child(int child, pid_t *pid) {
  *pid = fork();
  if (*pid < 0) return -errno;
  if (*pid > 0) return child;
  self.number = child;
  *pid = getpid();
  return 0;
}

static long wait_for(pid_t target, int number, bool nohang) {
  int status;
  pid_t found = waitpid(target, &status, WNOHANG);
  if (found < 0) return -errno;
  if (found == 0) return nohang ? 0 : MUST_WAIT;
  self.registers.slots[0] =
      WIFEXITED(status) ? WEXITSTATUS(status) : 256 + own_signal(WTERMSIG(status));
  return found == target ? number : UNKNOWN;
}

static long errors(int result) { return result < 0 ? -errno : result; }

/* The host lets an effective id be set that is there already, whatever the others are. */
static void note_same_id(long asked, unsigned real, unsigned effective, unsigned saved) {
  if (asked == effective && asked != real && asked != saved && geteuid()) self.rules |= SAME_ID;
}

static long set_effective_user(long asked) {
  uid_t real, effective, saved;
  getresuid(&real, &effective, &saved);
  note_same_id(asked, real, effective, saved);
  return errors(seteuid((uid_t)asked));
}

static long set_effective_group(long asked) {
  gid_t real, effective, saved;
  getresgid(&real, &effective, &saved);
  note_same_id(asked, real, effective, saved);
  return errors(setegid((gid_t)asked));
}

static long obey_call_of_process(const struct order *order, struct answer *answer) {
  const long *numbers = order->numbers;
  switch (order->call) {
    case FORK:
      return fork_child((int)numbers[0], &answer->pid);
    case EXIT:
      _exit((int)numbers[0]);
    case WAITPID:
      return wait_for(order->target, (int)numbers[0], numbers[1]);
    case GETPID:
      return number_of(getpid());
    case GETPPID:
      return number_of(getppid());
    case SETUID:
      return errors(setuid((uid_t)numbers[0]));
    case SETEUID:
      return set_effective_user(numbers[0]);
    case SETGID:
      return errors(setgid((gid_t)numbers[0]));
    case SETEGID:
      return set_effective_group(numbers[0]);
    default:
      return numbers[0];
  }
}

static long obey_call_of_memory(const struct order *order) {
  const long *numbers = order->numbers;
  switch (order->call) {
    case MAP:
      return map_page(numbers[0]);
    case UNMAP:
      return unmap_page(numbers[0]);
    case PROTECT:
      return protect_page(numbers[0], numbers[1]);
    case STORE:
      return store_bytes(numbers[0], order->bytes, order->count);
    default:
      return load_byte(numbers[0]);
  }
}

static long obey_call_of_pipes(const struct order *order, struct answer *answer) {
  const long *numbers = order->numbers;
  switch (order->call) {
    case PIPE:
      return make_pipe((int)numbers[1], (int)numbers[2], &answer->pipe);
    case DUP:
      return errors(dup((int)numbers[0]));
    case DUP2:
      return errors(dup2((int)numbers[0], (int)numbers[1]));
    case CLOSE:
      return errors(close((int)numbers[0]));
    case SET_NONBLOCK:
      return set_nonblocking((int)numbers[0], numbers[1]);
    case READ:
      return read_pipe(numbers[0], numbers[1], numbers[2]);
    default:
      return write_pipe(numbers[0], numbers[1], numbers[2]);
  }
}

static long obey_call_of_signals(const struct order *order) {
  const long *numbers = order->numbers;
  switch (order->call) {
    case KILL:
      return send_signal(order->target, numbers[1], 0, false);
    case SIGQUEUE:
      return send_signal(order->target, numbers[1], numbers[2], true);
    case SIGACTION:
      return set_action(numbers[0], (int)numbers[1], (signal_set)numbers[3]);
    case SIGPROCMASK:
      self.mask = changed_mask(self.mask, (int)numbers[0], (signal_set)numbers[1]);
      return 0;
    case SIGPENDING:
      return pending_answer();
    default:
      return -EINVAL;
  }
}

static long obey(const struct order *order, struct answer *answer) {
  if (order->call <= LOAD) return obey_call_of_memory(order);
  if (order->call >= PIPE && order->call <= WRITE) return obey_call_of_pipes(order, answer);
  if (order->call >= KILL && order->call <= SIGRETURN) return obey_call_of_signals(order);
  return obey_call_of_process(order, answer);
}

static void tell_inventory(void) {
  struct inventory found = {.parent = number_of(getppid()), .registers = self.registers};
  getresuid(&found.ids[0], &found.ids[1], &found.ids[2]);
  getresgid(&found.ids[3], &found.ids[4], &found.ids[5]);
  tell_descriptors(found.descriptors);
  tell_pages(found.pages);
  tell_signals(&found);
  tell(&found, sizeof found);
}

static void obey_delivery(int signal) {
  enum verdict verdict = deliver(signal);
  if (verdict != ANSWERED_BEFORE)
    reply((struct answer){.verdict = verdict, .value = self.registers.ret});
}

static void obey_call(const struct order *order) {
  struct answer answer = {.verdict = ANSWERED};
  answer.value = obey(order, &answer);
  if (answer.value == MUST_WAIT)
    answer.verdict = WAITS;
  else
    self.registers.ret = answer.value;
  reply(answer);
}

void serve(void) {
  struct order order;
  while (recv(OWN_SIDES + self.number, &order, sizeof order, 0) == sizeof order) {
    if (self.number == 1) drop_all_pending();
    if (order.call == SIGRETURN && self.depth > 0) return;
    if (order.call == INVENTORY)
      tell_inventory();
    else if (order.call == DELIVER)
      obey_delivery((int)order.numbers[0]);
    else
      obey_call(&order);
  }
  _exit(0);
}
