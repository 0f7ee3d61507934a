/* A preload for tests: no thread can be started. It answers as the C library does where the system
 * has no room for one more. */
static const int NO_ROOM = 11;

int pthread_create(void *thread, const void *attributes, void *(*start)(void *), void *argument) {
  (void)thread;
  (void)attributes;
  (void)start;
  (void)argument;
  return NO_ROOM;
}
