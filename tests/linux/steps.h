/* The steps of a schedule, made on the host one by one. */
#ifndef STEPS_H
#define STEPS_H

#include "order.h"

enum { PIPES = 32 };

/* The host's numbers of the pipes, as they were made last. */
extern ino_t pipes[PIPES];

/* Makes the step of a line, and prints what came of it. */
void make_step(const char *line);

#endif
