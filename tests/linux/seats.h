/* The processes that are played, by the numbers of the schedule, and the channels to them. */
#ifndef SEATS_H
#define SEATS_H

#include "order.h"

struct seat {
  pid_t pid;
  int handle;
  bool has_ended, kill_waits;
};

enum outcome { REPLIED, ENDED };

extern struct seat seats[PROCESSES + 1];

bool can_play(void);
bool can_set_ids(void);
void begin(int count);
void attend(int number);
void leave(int number);
enum outcome ask(int number, const struct order *order, void *told, size_t size);
enum outcome end_by_kill(int number);
void finish(void);
void give_up(const char *why) __attribute__((noreturn));

#endif
