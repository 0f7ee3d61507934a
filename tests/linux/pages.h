/* The pages of a process, each of them at the start of a page of the host. */
#ifndef PAGES_H
#define PAGES_H

#include <sys/uio.h>

#include "order.h"

long map_page(long page);
long unmap_page(long page);
long protect_page(long page, bool writable);
long store_bytes(long address, const unsigned char *bytes, unsigned count);
long load_byte(long address);
unsigned char *place_of(long address);
bool is_good(long address, long count, bool to_write);
int pieces_of(long address, long count, struct iovec *pieces);
void tell_pages(struct page *pages);

#endif
