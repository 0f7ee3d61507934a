/* The state that a schedule has left on the host, in the lines of a state's text. */
#ifndef STATE_H
#define STATE_H

void print_state(void);

#endif
