#include "signals.h"

#include "order.h"

#define KNOWN                                                                          \
  (REALTIME | SIGNAL(1) | SIGNAL(2) | SIGNAL(3) | SIGNAL(6) | SIGNAL(9) | SIGNAL(10) | \
   SIGNAL(12) | SIGNAL(13) | SIGNAL(14) | SIGNAL(15) | SIGNAL(17))

enum { FIRST_REALTIME = 32 };

bool is_known(long number) { return number > 0 && number < SIGNALS && (KNOWN & SIGNAL(number)); }

/* The C library keeps the first realtime signals for itself, so all are some places further. */
int host_signal(int number) {
  return number < FIRST_REALTIME ? number : SIGRTMIN + number - FIRST_REALTIME;
}

int own_signal(int host) { return host < SIGRTMIN ? host : host - SIGRTMIN + FIRST_REALTIME; }

sigset_t host_set(signal_set set) {
  sigset_t found;
  sigemptyset(&found);
  for (int number = 1; number < SIGNALS; number++)
    if (KNOWN & set & SIGNAL(number)) sigaddset(&found, host_signal(number));
  return found;
}

signal_set own_set(const sigset_t *set) {
  signal_set found = 0;
  for (int number = 1; number < SIGNALS; number++)
    if (is_known(number) && sigismember(set, host_signal(number)) == 1) found |= SIGNAL(number);
  return found;
}

signal_set pending_signals(void) {
  sigset_t pending;
  sigpending(&pending);
  return own_set(&pending);
}

signal_set host_mask(void) {
  sigset_t mask;
  sigprocmask(SIG_BLOCK, 0, &mask);
  return own_set(&mask);
}

/* What is no signal of a schedule stays blocked. */
void set_host_mask(signal_set mask) {
  sigset_t set;
  sigfillset(&set);
  for (int number = 1; number < SIGNALS; number++)
    if (is_known(number) && !(mask & SIGNAL(number))) sigdelset(&set, host_signal(number));
  sigprocmask(SIG_SETMASK, &set, 0);
}

void block_all(void) {
  sigset_t set;
  sigfillset(&set);
  sigprocmask(SIG_SETMASK, &set, 0);
}

/* The mask that the host makes of a mask by sigprocmask. Pending signals stay blocked meanwhile, so
 * that none is delivered, and are counted by hand. */
signal_set changed_mask(signal_set mask, int how, signal_set named) {
  signal_set held = pending_signals();
  static const int HOW[] = {[BLOCK] = SIG_BLOCK, [UNBLOCK] = SIG_UNBLOCK, [SET] = SIG_SETMASK};
  signal_set by_hand[] = {[BLOCK] = mask | named, [UNBLOCK] = mask & ~named, [SET] = named};
  signal_set asked[] = {[BLOCK] = named, [UNBLOCK] = named & ~held, [SET] = named | held};
  sigset_t set = host_set(asked[how]);
  set_host_mask(mask | held);
  sigprocmask(HOW[how], &set, 0);
  signal_set found = host_mask();
  block_all();
  return (found & ~held) | (by_hand[how] & held);
}
