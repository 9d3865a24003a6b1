// The areas by two views of the same memory: the test writes by the one, the library gets the other, whose permissions
// are those of its contract. So no permission has to be changed between two calls.
#define _GNU_SOURCE
#include <signal.h>
#include <stdarg.h>
#include <stdio.h>
#include <stdlib.h>
#include <string.h>
#include <sys/mman.h>
#include <ucontext.h>
#include <unistd.h>

#include "areas.h"

// The forbidden bytes on each side: more than a page, so that an access further off is met too.
enum { FORBIDDEN = 256 * PAGE, SIGNAL_STACK = 64 * 1024, WRITE_FAULT = 2 };

struct area areas[AREAS];
struct trial trial = {"the test itself", ENDS_AT_BORDER, 0, 0};

static const char *const AREA_TEXTS[AREAS] = {"line", "state", "record", "answer", "out", "state"};
static const char *const PLACE_TEXTS[PLACES] = {"end", "begin"};
static uint8_t signal_stack[SIGNAL_STACK];

static size_t offset(enum area_name name) {
    return trial.place == ENDS_AT_BORDER ? PAGE - areas[name].length : 0;
}

uint8_t *own_start(enum area_name name) {
    return areas[name].own + offset(name);
}

uint8_t *lent_start(enum area_name name) {
    return areas[name].lent + offset(name);
}

const char *area_text(enum area_name name) {
    return AREA_TEXTS[name];
}

void put_area(enum area_name name, const uint8_t *bytes, size_t length) {
    areas[name].length = length;
    memcpy(own_start(name), bytes, length);
}

static void tell(const char *format, va_list values) {
    char text[256];
    vsnprintf(text, sizeof text, format, values);
    dprintf(2, "garbage: %s %s (pass: areas %s at the border, seed %llu, input %lu)\n", trial.call, text,
            PLACE_TEXTS[trial.place], (unsigned long long)trial.seed, trial.input);
}

void complain(const char *format, ...) {
    va_list values;
    va_start(values, format);
    tell(format, values);
    va_end(values);
    // At once: from a signal nothing else is safe.
    _exit(1);
}

static void tell_fault(int number, siginfo_t *info, void *context) {
    const uint8_t *at = info->si_addr;
    const char *did = ((ucontext_t *)context)->uc_mcontext.gregs[REG_ERR] & WRITE_FAULT ? "wrote" : "read";
    (void)number;
    for (enum area_name name = LINE; name < AREAS; name++) {
        const uint8_t *page = areas[name].lent;
        if (page && at >= page - FORBIDDEN && at < page + PAGE + FORBIDDEN) {
            complain("%s at place %td of the %s, which has %zu bytes", did, at - lent_start(name), area_text(name),
                     areas[name].length);
        }
    }
    complain("%s at an address of no area", did);
}

static void *checked(void *mapping, const char *what) {
    if (mapping == MAP_FAILED) {
        perror(what);
        exit(2);
    }
    return mapping;
}

static void make_area(enum area_name name) {
    int only_read = name == LINE || name == RECORD || name == STORED;
    int permissions = only_read ? PROT_READ : PROT_READ | PROT_WRITE;
    int memory = memfd_create(area_text(name), 0);
    if (memory < 0 || ftruncate(memory, PAGE)) {
        perror("garbage: memory for an area");
        exit(2);
    }
    areas[name].own = checked(mmap(NULL, PAGE, PROT_READ | PROT_WRITE, MAP_SHARED, memory, 0), "the test's view");
    uint8_t *around =
        checked(mmap(NULL, FORBIDDEN + PAGE + FORBIDDEN, PROT_NONE, MAP_PRIVATE | MAP_ANONYMOUS, -1, 0), "no access");
    areas[name].lent =
        checked(mmap(around + FORBIDDEN, PAGE, permissions, MAP_SHARED | MAP_FIXED, memory, 0), "the library's view");
    close(memory);
}

void make_areas(void) {
    stack_t stack = {.ss_sp = signal_stack, .ss_size = sizeof signal_stack};
    struct sigaction action = {.sa_sigaction = tell_fault, .sa_flags = SA_SIGINFO | SA_ONSTACK};
    if (sysconf(_SC_PAGESIZE) != PAGE || sigaltstack(&stack, NULL) || sigaction(SIGSEGV, &action, NULL) ||
        sigaction(SIGBUS, &action, NULL)) {
        fprintf(stderr, "garbage: pages of another size, or no signals\n");
        exit(2);
    }
    for (enum area_name name = LINE; name < AREAS; name++) {
        make_area(name);
    }
}
