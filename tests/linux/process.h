/* A process that is played: what it knows of itself, and the calls that it makes. */
#ifndef PROCESS_H
#define PROCESS_H

#include "order.h"
#include "signals.h"

/* What a process has beside what the host keeps of it; a fork copies it with all memory. */
struct process {
  int number;
  struct registers registers;
  signal_set mask;
  int depth;
  struct frame frames[FRAMES];
  bool ignores_children;
  const struct host_numbers *numbers;
  unsigned rules;
};

extern struct process self;

/* An answer of no call: this call has to wait. */
extern const long MUST_WAIT;

/* Serves orders until a sigreturn, which the frame that was entered last obeys. */
void serve(void);
void reply(struct answer answer);
int number_of(pid_t pid);

/* Descriptors and pipes. */
long make_pipe(int read_side, int write_side, ino_t *pipe_made);
long set_nonblocking(int descriptor, bool on);
long read_pipe(long descriptor, long address, long count);
long write_pipe(long descriptor, long address, long count);
void tell_descriptors(struct descriptor *descriptors);

/* Signals. */
long send_signal(pid_t target, long signal, long value, bool with_value);
long set_action(long signal, int kind, signal_set mask);
long pending_answer(void);
enum verdict deliver(int signal);
void drop_all_pending(void);
void tell_signals(struct inventory *found);

#endif
