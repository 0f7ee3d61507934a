/* Signals by the numbers of the schedule, and the host's masks and pending signals in them. */
#ifndef SIGNALS_H
#define SIGNALS_H

#include <signal.h>
#include <stdbool.h>
#include <stdint.h>

typedef uint64_t signal_set;

#define SIGNAL(number) ((signal_set)1 << (number))
#define REALTIME ((signal_set)0xff << 32)

bool is_known(long number);
int host_signal(int number);
int own_signal(int host);
sigset_t host_set(signal_set set);
signal_set own_set(const sigset_t *set);
signal_set pending_signals(void);
signal_set host_mask(void);
void set_host_mask(signal_set mask);
void block_all(void);
signal_set changed_mask(signal_set mask, int how, signal_set named);

#endif
