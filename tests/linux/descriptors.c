/* Descriptors and pipes: the host's own, with the profile's rules on size and on bad addresses. */
#include <errno.h>
#include <fcntl.h>
#include <poll.h>
#include <sys/ioctl.h>
#include <sys/stat.h>
#include <unistd.h>

#include "pages.h"
#include "process.h"

/* A description carries its number in a place that the host keeps for each: the signal of
 * asynchronous input, which is never asked for. Copies of a descriptor show the same. */
static void name_description(int descriptor, int number) {
  fcntl(descriptor, F_SETSIG, number + 1);
}

long make_pipe(int read_side, int write_side, ino_t *pipe_made) {
  int made[2];
  struct stat status;
  if (pipe(made)) return -errno;
  name_description(made[0], read_side);
  name_description(made[1], write_side);
  fstat(made[0], &status);
  *pipe_made = status.st_ino;
  self.registers.slots[0] = made[0];
  self.registers.slots[1] = made[1];
  return 0;
}

long set_nonblocking(int descriptor, bool on) {
  return fcntl(descriptor, F_SETFL, on ? O_NONBLOCK : 0) ? -errno : 0;
}

static bool is_nonblocking(int descriptor) { return fcntl(descriptor, F_GETFL) & O_NONBLOCK; }

static short events_of(int descriptor) {
  struct pollfd asked = {descriptor, POLLIN | POLLOUT, 0};
  return poll(&asked, 1, 0) < 0 ? 0 : asked.revents;
}

static int bytes_held(int descriptor) {
  int held = 0;
  ioctl(descriptor, FIONREAD, &held);
  return held;
}

/* The answer where the range is bad. The host is asked where it finds that before anything else,
 * and where it would move nothing. */
static long bad_range(int descriptor, long address, long count, bool to_memory) {
  short events = events_of(descriptor);
  bool is_reached = to_memory ? bytes_held(descriptor) > 0 : !(events & POLLERR);
  if (is_good(address, 1, to_memory) || !is_reached) {
    self.rules |= FAULT_IS_FIRST;
    return -EFAULT;
  }
  ssize_t moved = to_memory ? read(descriptor, place_of(address), (size_t)count)
                            : write(descriptor, place_of(address), (size_t)count);
  return moved < 0 ? -errno : moved;
}

long read_pipe(long number, long address, long count) {
  int descriptor = (int)number;
  struct iovec pieces[PAGES];
  if (read(descriptor, 0, 0) < 0) return -errno;
  if (count == 0) return 0;
  if (!is_good(address, count, true)) return bad_range(descriptor, address, count, true);
  bool would_wait = !(events_of(descriptor) & (POLLIN | POLLHUP));
  if (would_wait && !is_nonblocking(descriptor)) return MUST_WAIT;
  ssize_t moved = readv(descriptor, pieces, pieces_of(address, count, pieces));
  return moved < 0 ? -errno : moved;
}

long write_pipe(long number, long address, long count) {
  int descriptor = (int)number;
  struct iovec pieces[PAGES];
  if (write(descriptor, "", 0) < 0) return -errno;
  if (count == 0) return 0;
  if (!is_good(address, count, false)) return bad_range(descriptor, address, count, false);
  if (!(events_of(descriptor) & POLLERR) && bytes_held(descriptor) + count > PIPE_BYTES) {
    self.rules |= PIPE_HOLDS_512;
    return is_nonblocking(descriptor) ? -EAGAIN : MUST_WAIT;
  }
  ssize_t moved = writev(descriptor, pieces, pieces_of(address, count, pieces));
  return moved < 0 ? -errno : moved;
}

void tell_descriptors(struct descriptor *descriptors) {
  for (int number = 0; number < DESCRIPTORS; number++) {
    struct stat status;
    int flags = fcntl(number, F_GETFL);
    if (flags < 0 || fstat(number, &status)) continue;
    descriptors[number] = (struct descriptor){
        .is_open = true,
        .writes = (flags & O_ACCMODE) == O_WRONLY,
        .is_nonblocking = flags & O_NONBLOCK,
        .description = fcntl(number, F_GETSIG) - 1,
        .pipe = status.st_ino,
    };
  }
}
