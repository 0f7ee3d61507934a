/* Plays schedules as processes of the host. It reads from standard input, for each, `begin` and
 * how many processes there are at the start, a line for each step, and `end`. For each step it
 * prints what came of it, with the rules of the profile that it had to make up for, and behind the
 * last the state. It ends with what it started, and signals nothing else. */
#include <stdio.h>
#include <string.h>

#include "seats.h"
#include "state.h"
#include "steps.h"

enum { CANNOT_PLAY = 3 };

static void end_schedule(void) {
  puts("state");
  print_state();
  finish();
  memset(pipes, 0, sizeof pipes);
  puts("end");
  fflush(stdout);
}

int main(void) {
  char line[512];
  int count;
  if (!can_play()) return CANNOT_PLAY;
  puts(can_set_ids() ? "with ids" : "without ids");
  fflush(stdout);
  while (fgets(line, sizeof line, stdin)) {
    if (sscanf(line, "begin %d", &count) == 1)
      begin(count);
    else if (strcmp(line, "end\n") == 0)
      end_schedule();
    else
      make_step(line);
  }
  return 0;
}
