#define _DEFAULT_SOURCE
#include "guard.h"

#include <signal.h>
#include <string.h>
#include <sys/mman.h>

#include "check.h"
#include "messages.h"

enum { PAGE = 4096, PAGES = ROOM / PAGE + 2, INSIDE = PAGES * PAGE };

/* Each place has its own pages, with a closed page at either end. */
static uint8_t *pages[PLACES];
static int at_the_end;

static void open_pages(enum place place, int protection)
{
    if (mprotect(pages[place], INSIDE, protection) != 0) fail("mprotect", place);
}

static void *guarded_lend(enum place place, const void *from, size_t n, int writable)
{
    uint8_t *at = at_the_end ? pages[place] + INSIDE - n : pages[place];
    open_pages(place, PROT_READ | PROT_WRITE);
    if (n > 0) memcpy(at, from, n);
    if (!writable) open_pages(place, PROT_READ);
    return at;
}

static void guarded_take_back(enum place place, void *at)
{
    (void)at;
    open_pages(place, PROT_NONE);
}

const struct lender guarded = {guarded_lend, guarded_take_back};

/* The fault comes out of the library's own code, or memcpy or memset under it: so printing is safe here. */
static void stepped_outside(int number)
{
    fail("a byte outside a lent buffer was touched, or one was written that is only lent to be read; signal", (unsigned)number);
}

void guard_begin(void)
{
    for (enum place place = 0; place < PLACES; place++) {
        uint8_t *at = mmap(NULL, INSIDE + 2 * PAGE, PROT_NONE, MAP_PRIVATE | MAP_ANONYMOUS, -1, 0);
        if (at == MAP_FAILED) fail("mmap", place);
        pages[place] = at + PAGE;
    }
    signal(SIGSEGV, stepped_outside);
    signal(SIGBUS, stepped_outside);
}

void guard_at_the_end(int end)
{
    at_the_end = end;
}
