/* Signals of a process. On the host all are blocked all the time, so that what is sent stays
 * pending; a delivery opens the one signal that it is of. */
#include <errno.h>
#include <string.h>
#include <time.h>
#include <ucontext.h>
#include <unistd.h>

#include "process.h"

/* What a delivery opens: the signal that it is of. Others are held back on the host, whatever the
 * mask says, and an action may have been changed for as long. */
static struct {
  int signal;
  signal_set held_back;
  bool has_changed_action;
  struct sigaction kept;
} opened;

/* Whether a signal can be asked for of the host: it is one of a schedule, or none at all. */
static bool may_be_sent(long signal) {
  return signal == 0 || is_known(signal) || signal < 0 || signal > 64;
}

long send_signal(pid_t target, long signal, long value, bool with_value) {
  if (!may_be_sent(signal)) return -EINVAL;
  int sent = is_known(signal) ? host_signal((int)signal) : (int)signal;
  if (signal == SIGKILL) {
    self.rules |= KILL_WAITS;
    sent = 0;
  }
  union sigval carried = {.sival_ptr = (void *)value};
  return (with_value ? sigqueue(target, sent, carried) : kill(target, sent)) ? -errno : 0;
}

static void take_signal(int host, siginfo_t *info, void *context);

/* An answer of no delivery: the host has chosen another signal. */
static const long WRONG_SIGNAL = -999;

long set_action(long signal, int kind, signal_set mask) {
  if (!may_be_sent(signal)) return -EINVAL;
  int host = is_known(signal) ? host_signal((int)signal) : (int)signal;
  struct sigaction action = {.sa_flags = SA_SIGINFO, .sa_mask = host_set(mask)};
  if (kind == CATCH)
    action.sa_sigaction = take_signal;
  else
    action = (struct sigaction){.sa_handler = kind == IGNORE ? SIG_IGN : SIG_DFL};
  if (sigaction(host, &action, 0)) return -errno;
  if (signal != SIGCHLD) return 0;
  self.ignores_children = kind == IGNORE;
  if (kind != IGNORE) return 0;
  self.rules |= ENDED_CHILDREN_STAY;
  action.sa_handler = SIG_DFL;
  return sigaction(host, &action, 0) ? -errno : 0;
}

static struct action action_of(int signal) {
  struct sigaction found;
  sigaction(host_signal(signal), 0, &found);
  if (signal == SIGCHLD && self.ignores_children) return (struct action){IGNORE, 0};
  if (found.sa_handler == SIG_DFL) return (struct action){DEFAULT, 0};
  if (found.sa_handler == SIG_IGN) return (struct action){IGNORE, 0};
  return (struct action){CATCH, own_set(&found.sa_mask)};
}

long pending_answer(void) { return (long)(pending_signals() & self.mask); }

/* A mask as the host tells it, but for the signals that a delivery held back: those are counted by
 * hand. */
static signal_set joined(signal_set told, signal_set by_hand) {
  return (told & ~opened.held_back) | (by_hand & opened.held_back);
}

static long value_of(int signal, const siginfo_t *info) {
  bool is_sent = info->si_code == SI_QUEUE && info->si_value.sival_ptr;
  if (SIGNAL(signal) & REALTIME) return (long)info->si_value.sival_ptr;
  if (is_sent) self.rules |= STANDARD_HAS_NO_VALUE;
  return 0;
}

/* The host keeps the SIGPIPE of a write and one that was sent apart, since the one is of a thread
 * and the other of its process. */
static void drop_second_pipe_signal(void) {
  const struct timespec at_once = {0, 0};
  sigset_t set = host_set(SIGNAL(SIGPIPE));
  if (sigtimedwait(&set, 0, &at_once) == SIGPIPE) self.rules |= PENDING_ONCE;
}

/* The catching function: it serves orders itself, and returns at the sigreturn of its frame. The
 * mask that the host would put back blocks all again. */
static void take_signal(int host, siginfo_t *info, void *context) {
  enum { BYTES_OF_A_MASK = 8 };
  ucontext_t *interrupted = context;
  struct frame *frame = &self.frames[self.depth++];
  int signal = own_signal(host);
  signal_set while_caught = host_mask();
  block_all();
  if (signal == SIGPIPE) drop_second_pipe_signal();
  if (opened.has_changed_action) sigaction(host_signal(opened.signal), &opened.kept, 0);
  signal_set by_hand = self.mask | action_of(signal).mask | SIGNAL(signal);
  *frame = (struct frame){self.registers, joined(own_set(&interrupted->uc_sigmask), self.mask)};
  memset(&interrupted->uc_sigmask, 0xff, BYTES_OF_A_MASK);
  self.mask = joined(while_caught, by_hand);
  self.registers.ret = signal == opened.signal ? value_of(signal, info) : WRONG_SIGNAL;
  reply((struct answer){.verdict = ANSWERED, .value = self.registers.ret});
  serve();
  self.depth--;
  self.registers = frame->registers;
  self.mask = frame->mask;
  reply((struct answer){.verdict = ANSWERED, .value = self.registers.ret});
}

/* Lets the host choose among realtime signals: all that may be delivered are open, and while it
 * catches the one that it took, none is. */
static void open_realtime(int signal, signal_set rivals) {
  opened.signal = signal;
  opened.held_back = ~(signal_set)0;
  opened.has_changed_action = true;
  sigaction(host_signal(signal), 0, &opened.kept);
  struct sigaction action = opened.kept;
  sigfillset(&action.sa_mask);
  sigaction(host_signal(signal), &action, 0);
  set_host_mask((self.mask | (pending_signals() & ~rivals)) & ~SIGNAL(signal));
}

static void open_signal(int signal) {
  opened.signal = signal;
  opened.held_back = pending_signals() & ~SIGNAL(signal);
  opened.has_changed_action = false;
  set_host_mask((self.mask | opened.held_back) & ~SIGNAL(signal));
  block_all();
}

/* Drops the first realtime signal that the host chooses, and no more. */
static enum verdict drop_first(int signal, signal_set may_be) {
  const struct timespec at_once = {0, 0};
  sigset_t set = host_set(may_be & REALTIME);
  self.rules |= ONE_ENTRY_IS_DROPPED;
  return sigtimedwait(&set, 0, &at_once) == host_signal(signal) ? ANSWERED : NOT_DELIVERABLE;
}

enum verdict deliver(int signal) {
  signal_set may_be = pending_signals() & ~self.mask;
  signal_set rivals = SIGNAL(signal) & REALTIME ? may_be & REALTIME & ~SIGNAL(signal) : 0;
  if (!(may_be & SIGNAL(signal)) || rivals & (SIGNAL(signal) - 1)) return NOT_DELIVERABLE;
  int kind = action_of(signal).kind;
  if (kind == CATCH && self.depth == FRAMES) return FRAMES_FULL;
  if (kind == IGNORE && SIGNAL(signal) & REALTIME) return drop_first(signal, may_be);
  if (kind == CATCH && rivals)
    open_realtime(signal, rivals);
  else
    open_signal(signal);
  if (kind == CATCH) return ANSWERED_BEFORE;
  return pending_signals() & SIGNAL(signal) ? NOT_DELIVERABLE : ANSWERED;
}

void drop_all_pending(void) {
  const struct timespec at_once = {0, 0};
  sigset_t all;
  sigfillset(&all);
  while (sigtimedwait(&all, 0, &at_once) > 0) self.rules |= FIRST_TAKES_NONE;
}

/* Takes the queued signals, since that is the only way to see their values. */
static void tell_queue(struct inventory *found) {
  const struct timespec at_once = {0, 0};
  for (int signal = 32; signal < SIGNALS; signal++) {
    sigset_t set = host_set(SIGNAL(signal));
    siginfo_t info;
    while (found->queued < QUEUED && sigtimedwait(&set, &info, &at_once) > 0)
      found->queue[found->queued++] = (struct entry){signal, (long)info.si_value.sival_ptr};
  }
}

void tell_signals(struct inventory *found) {
  for (int signal = 1; signal < SIGNALS; signal++)
    if (is_known(signal)) found->actions[signal] = action_of(signal);
  found->pending = pending_signals() & ~REALTIME;
  found->mask = self.mask;
  found->depth = self.depth;
  memcpy(found->frames, self.frames, sizeof self.frames);
  tell_queue(found);
}
