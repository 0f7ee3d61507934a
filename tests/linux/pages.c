#include "pages.h"

#include <errno.h>
#include <string.h>
#include <sys/mman.h>
#include <unistd.h>

enum { ADDRESSES = PAGES * PAGE_BYTES };

/* Far from all that a small program has, and below the ends of all machines' addresses. */
static const uintptr_t FIRST_PLACE = 0x700000000;

static unsigned char *place_of_page(long page) {
  return (unsigned char *)(FIRST_PLACE + (uintptr_t)(page * sysconf(_SC_PAGESIZE)));
}

/* Where an address lies on the host; where there is no such address, nothing is ever mapped. */
unsigned char *place_of(long address) {
  if (address < 0 || address >= ADDRESSES) return place_of_page(PAGES);
  return place_of_page(address / PAGE_BYTES) + address % PAGE_BYTES;
}

static bool is_page(long page) { return page >= 0 && page < PAGES; }

static long protect_place(long page, int protection) {
  return mprotect(place_of_page(page), (size_t)sysconf(_SC_PAGESIZE), protection) ? -EINVAL : 0;
}

long map_page(long page) {
  if (!is_page(page)) return -EINVAL;
  void *found = mmap(place_of_page(page), (size_t)sysconf(_SC_PAGESIZE), PROT_READ | PROT_WRITE,
                     MAP_PRIVATE | MAP_ANONYMOUS | MAP_FIXED_NOREPLACE, -1, 0);
  return found == MAP_FAILED ? -EINVAL : 0;
}

long unmap_page(long page) {
  size_t size = (size_t)sysconf(_SC_PAGESIZE);
  if (!is_page(page) || msync(place_of_page(page), size, MS_ASYNC)) return -EINVAL;
  return munmap(place_of_page(page), size);
}

long protect_page(long page, bool writable) {
  if (!is_page(page)) return -EINVAL;
  return protect_place(page, writable ? PROT_READ | PROT_WRITE : PROT_READ);
}

/* Sends a byte through a pipe and, where it has to be writable, back to its place. */
static bool is_good_place(unsigned char *place, bool to_write) {
  unsigned char away;
  if (write(PROBE_WRITE, place, 1) != 1) return false;
  if (to_write && read(PROBE_READ, place, 1) == 1) return true;
  return read(PROBE_READ, &away, 1) == 1 && !to_write;
}

bool is_good(long address, long count, bool to_write) {
  if (count == 0) return true;
  if (address < 0 || address >= ADDRESSES || count > ADDRESSES - address) return false;
  for (long page = address / PAGE_BYTES; page <= (address + count - 1) / PAGE_BYTES; page++)
    if (!is_good_place(place_of_page(page), to_write)) return false;
  return true;
}

/* The pieces of a good range, one for each page that it meets; the answer is their number. */
int pieces_of(long address, long count, struct iovec *pieces) {
  int found = 0;
  while (count > 0) {
    long left = PAGE_BYTES - address % PAGE_BYTES;
    long taken = count < left ? count : left;
    pieces[found++] = (struct iovec){place_of(address), (size_t)taken};
    address += taken;
    count -= taken;
  }
  return found;
}

long store_bytes(long address, const unsigned char *bytes, unsigned count) {
  struct iovec pieces[PAGES];
  if (!is_good(address, count, true)) return -EFAULT;
  int found = pieces_of(address, count, pieces);
  for (int at = 0; at < found; at++) {
    memcpy(pieces[at].iov_base, bytes, pieces[at].iov_len);
    bytes += pieces[at].iov_len;
  }
  return 0;
}

long load_byte(long address) { return is_good(address, 1, false) ? *place_of(address) : -EFAULT; }

void tell_pages(struct page *pages) {
  for (long page = 0; page < PAGES; page++) {
    pages[page].is_mapped = is_good_place(place_of_page(page), false);
    if (!pages[page].is_mapped) continue;
    pages[page].is_writable = is_good_place(place_of_page(page), true);
    memcpy(pages[page].bytes, place_of_page(page), PAGE_BYTES);
  }
}
