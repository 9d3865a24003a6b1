// The example that stores a state area, examples/controller/restore.c, with its system calls in the test's hands
// (tests/cut_calls.h). A process of its own stores; it is ended after each of its calls, or a call fails; then what was
// not flushed is lost, as in a power cut, and the area is restored. All with the example's own line, and with one whose
// state area has the other length. (tests/storing_before.c restores what was stored before areas had lock bytes.)
//   storing FOLDER [PART]   all parts, or one of them, by its name in PARTS; to be called in the repository's root
#define _DEFAULT_SOURCE
#define main example_main
#ifndef EXAMPLE
#define EXAMPLE "../examples/controller/restore.c"
#endif
#include EXAMPLE
#undef main
#include <stdlib.h>
#include <sys/mman.h>
#include <sys/wait.h>

#include "cut_calls.h"
#include "storing.h"

enum { PART_OF_IT = 500, AROUND = STATE_AT + SUM_BYTES, OLD_BYTE = 0xEE };

static char name[256], fresh_name[sizeof name + 4];
static uint8_t old_state[SORTER_GATE_STATE_BYTES_WIDE], new_state[sizeof old_state], area[sizeof old_state];

// The length of the stored file of this line.
static size_t file_bytes(void) {
    return AROUND + state_len;
}

// The bytes of the file that holds a state, as the example stores it with nothing in its way.
static void stored_bytes(const uint8_t *from, uint8_t *bytes) {
    memset(seen, 0, sizeof *seen);
    memset(&plan, 0, sizeof plan);
    plan.portion = file_bytes();
    if (!store(name, line, line_len, from, state_len)) {
        fault("nothing could be stored");
    }
    FILE *f = fopen(name, "rb");
    if (!f || fread(bytes, 1, file_bytes(), f) != file_bytes() || fgetc(f) != EOF) {
        fault("the stored file has not %zu bytes", file_bytes());
    }
    fclose(f);
}

// The folder before a storing: with an area or without, and with what an earlier cut left of a longer file.
static void prepare(const uint8_t *before) {
    static const uint8_t rest[2 * MOST_BYTES] = {7};
    remove(name);
    if (before) {
        put_file(name, before, file_bytes());
    }
    put_file(fresh_name, rest, sizeof rest);
    memset(seen, 0, sizeof *seen);
}

// Stores the new area in a process of its own, as `plan` says.
static void store_apart(void) {
    pid_t child = fork();
    if (child == 0) {
        seen->told = store(name, line, line_len, new_state, state_len);
        _exit(0);
    }
    int status = 0;
    if (child < 0 || waitpid(child, &status, 0) != child || !WIFEXITED(status) || WEXITSTATUS(status) != 0) {
        fault("the process that stores did not end by itself (calls %s)", seen->order);
    }
}

// What a power cut loses: bytes that are not flushed, all or the later half, and a name that is not.
static void lose(const uint8_t *before, int data, int naming) {
    int back = naming && seen->renamed && !seen->named;
    if (back) {
        __real_rename(name, fresh_name);
        if (before) {
            put_file(name, before, file_bytes());
        }
    }
    const char *at = seen->renamed && !back ? name : fresh_name;
    if (data && seen->loose && truncate(at, data == 1 ? 0 : file_bytes() / 2) != 0) {
        fault("%s cannot be cut", at);
    }
}

// Restoring gives the old area or the new one, whole; the new one if the storing said so.
static void old_or_new(const uint8_t *before, const char *when) {
    memset(area, OLD_BYTE, sizeof area);
    enum stored found = restore(name, line, line_len, area, state_len);
    int is_new = found == WHOLE && memcmp(area, new_state, state_len) == 0;
    int is_old = before ? found == WHOLE && memcmp(area, old_state, state_len) == 0 : found == ABSENT;
    if (!is_new && !is_old) {
        fault("after %s the area is neither the old nor the new one: %s (calls %s)", when, SAYS[found], seen->order);
    }
    if (seen->told && !is_new) {
        fault("after %s the area is not the new one, though it was said to be stored (calls %s)", when, seen->order);
    }
}

static void try_digest(const uint8_t *old_file) {
    (void)old_file;
    static const struct {
        const char *text;
        uint64_t sum;
    } known[] = {{"", 0xcbf29ce484222325u}, {"a", 0xaf63dc4c8601ec8cu}, {"foobar", 0x85944171f73967e8u}};
    for (size_t i = 0; i < sizeof known / sizeof *known; i++) {
        if (digest((const uint8_t *)known[i].text, strlen(known[i].text)) != known[i].sum) {
            fault("the digest of '%s' is not that of FNV-1a", known[i].text);
        }
    }
}

static void try_order(const uint8_t *old_file) {
    prepare(old_file);
    plan.cut = plan.fail = 0;
    plan.portion = file_bytes();
    store_apart();
    if (!seen->told || strcmp(seen->order, "owfcrOFC") != 0) {
        fault("the order of calls is %s, and not open, write, flush, close, rename, and the folder's", seen->order);
    }
}

// A cut after each call, and none; what is not flushed is kept, or lost.
static int cuts_from(const uint8_t *before, size_t portion, int data, int naming) {
    plan.portion = portion;
    for (plan.cut = 1;; plan.cut++) {
        char when[64];
        prepare(before);
        store_apart();
        lose(before, data, naming);
        snprintf(when, sizeof when, seen->told ? "%d calls, all of them," : "a cut after call %d", seen->calls);
        old_or_new(before, when);
        if (seen->told || plan.cut > MOST_CALLS) {
            return plan.cut - 1;
        }
    }
}

static void try_cuts(const uint8_t *old_file) {
    int tried = 0;
    plan.fail = 0;
    for (int way = 0; way < 24; way++) {
        const uint8_t *before = way % 2 ? old_file : NULL;
        tried += cuts_from(before, way / 2 % 2 ? file_bytes() : PART_OF_IT, way / 4 % 3, way / 12);
    }
    if (tried < 24 * 8) {
        fault("only %d cuts were tried", tried);
    }
    printf("storing: %d cuts, each leaves the old area or the new one\n", tried);
}

// Each call fails once: it is told, and the area is the old or the new one. An interrupted write is none that failed.
static void try_errors(const uint8_t *old_file) {
    static const int errors[] = {EIO, ENOSPC, EINTR};
    plan.cut = 0;
    plan.portion = PART_OF_IT;
    for (int way = 0; way < 3; way++) {
        plan.error = errors[way];
        for (plan.fail = 1;; plan.fail++) {
            prepare(old_file);
            store_apart();
            old_or_new(old_file, "a call that failed");
            if (seen->calls < plan.fail) {
                break;
            }
            int interrupted = plan.error == EINTR && seen->order[plan.fail - 1] == 'w';
            if (seen->told != interrupted) {
                fault("call %d failed by %s, and storing gave %d (calls %s)", plan.fail, strerror(plan.error),
                      seen->told, seen->order);
            }
        }
    }
}

// The file must be refused, and for what; the state area stays as it was.
static void must_refuse(enum stored wanted, const char *what, size_t place) {
    static uint8_t untouched[sizeof area];
    memset(area, OLD_BYTE, sizeof area);
    memset(untouched, OLD_BYTE, sizeof untouched);
    enum stored found = restore(name, line, line_len, area, state_len);
    if (found != wanted) {
        fault("%s %zu: it is said to be '%s'", what, place, SAYS[found]);
    }
    if (memcmp(area, untouched, sizeof area) != 0) {
        fault("%s %zu: refused, and yet the state area was changed", what, place);
    }
}

static void put_byte(size_t place, int byte) {
    FILE *f = fopen(name, "r+b");
    if (!f || fseek(f, (long)place, SEEK_SET) != 0 || fputc(byte, f) != byte || fclose(f) != 0) {
        fault("%s cannot be changed", name);
    }
}

// Every bit of every byte, and all of a byte at once; of the longer file the lowest bit and all.
static void try_damage(const uint8_t *file) {
    int step = state_len > SORTER_GATE_STATE_BYTES ? 8 : 1;
    put_file(name, file, file_bytes());
    for (size_t place = 0; place < file_bytes(); place++) {
        for (int way = 0; way < 9; way += step) {
            put_byte(place, file[place] ^ (way < 8 ? 1 << way : 0xFF));
            must_refuse(place < LINE_AT ? OTHER_FORM : DAMAGED, "a changed byte at place", place);
        }
        put_byte(place, file[place]);
    }
    printf("storing: a changed byte at each of %zu places is told\n", file_bytes());
}

// Every shorter file, and longer ones.
static void try_lengths(const uint8_t *file) {
    static uint8_t longer[MOST_BYTES + 3];
    memcpy(longer, file, file_bytes());
    put_file(name, longer, file_bytes() + 3);
    for (size_t count = file_bytes() + 3; count > 0; count--) {
        if (truncate(name, (off_t)count - 1) != 0) {
            fault("%s cannot be cut", name);
        }
        if (count - 1 != file_bytes()) {
            must_refuse(OTHER_LENGTH, "a file of length", count - 1);
        }
    }
}

// What cannot be opened, or read, is not taken for a file that is not there.
static void try_unreadable(const uint8_t *file) {
    char below[sizeof name + 2];
    put_file(name, file, file_bytes());
    snprintf(below, sizeof below, "%s/a", name);
    if (restore(below, line, line_len, area, state_len) != UNREADABLE) {
        fault("a name below a file is not told");
    }
    if (restore("/", line, line_len, area, state_len) != UNREADABLE) {
        fault("a folder is not told");
    }
    remove(name);
    if (restore(name, line, line_len, area, state_len) != ABSENT) {
        fault("that nothing is stored is not told");
    }
}

// Another line's area: of another digest, or of another length too.
static void try_lines(const uint8_t *file) {
    static const uint8_t other[] = {1, 2, 0, 0, 0}, longer[] = {1, 1, 0, 0, 0, 0};
    size_t other_len = SORTER_GATE_STATE_BYTES + SORTER_GATE_STATE_BYTES_WIDE - state_len;
    put_file(name, file, file_bytes());
    if (restore(name, line, line_len, area, state_len) != WHOLE || memcmp(area, old_state, state_len) != 0) {
        fault("the area is not restored with its own line file");
    }
    if (restore(name, other, sizeof other, area, state_len) != OTHER_LINE ||
        restore(name, longer, sizeof longer, area, state_len) != OTHER_LINE ||
        restore(name, line, line_len - 1, area, state_len) != OTHER_LINE) {
        fault("another line's area is not refused");
    }
    if (restore(name, line, line_len, area, other_len) != OTHER_LENGTH) {
        fault("an area of the other length is not refused");
    }
}

// What the file is made of: eight bytes, the line's digest, the area, and the digest of all that.
static void try_form(const uint8_t *file) {
    size_t wanted = line_len > sizeof LINE ? SORTER_GATE_STATE_BYTES_WIDE : SORTER_GATE_STATE_BYTES;
    if (state_len != wanted) {
        fault("the line's area is taken to have %zu bytes, and not %zu", state_len, wanted);
    }
    if (memcmp(file, "SGSTATE2", 8) != 0 || !holds(file + 8, digest(line, line_len)) ||
        memcmp(file + 16, old_state, wanted) != 0 || !holds(file + 16 + wanted, digest(file, 16 + wanted))) {
        fault("the stored file is not made of mark, digest, area and digest");
    }
}

// A start of the whole example in a process of its own, which says nothing here; whether it ended as it should.
static int started(char *path) {
    char program[] = "restore", *words[] = {program, name, path, NULL};
    memset(seen, 0, sizeof *seen);
    memset(&plan, 0, sizeof plan);
    plan.portion = MOST_BYTES;
    fflush(stdout);
    pid_t child = fork();
    if (child == 0) {
        int silent = freopen("/dev/null", "w", stdout) && freopen("/dev/null", "w", stderr);
        _exit(silent ? example_main(3, words) : 2);
    }
    int status = 0;
    if (child < 0 || waitpid(child, &status, 0) != child || !WIFEXITED(status) || WEXITSTATUS(status) > 1) {
        fault("a start did not end by itself");
    }
    return WEXITSTATUS(status) == 0;
}

// Two starts with a line file, and none with one that is refused or not there.
static void try_starts(const uint8_t *file) {
    char path[sizeof name + 8];
    (void)file;
    snprintf(path, sizeof path, "%s.line", name);
    put_file(path, line, line_len);
    remove(name);
    if (!started(path) || !started(path) || restore(name, line, line_len, area, state_len) != WHOLE || area[2] != 1) {
        fault("two starts do not leave two partitions");
    }
    put_file(path, line, line_len - 1);
    if (started(path) || (remove(path), started(path))) {
        fault("a line file that is refused, or not there, is started with");
    }
}

static const struct {
    const char *name;
    void (*run)(const uint8_t *old_file);
} PARTS[] = {{"digest", try_digest}, {"order", try_order},     {"cuts", try_cuts},   {"errors", try_errors},
             {"damage", try_damage}, {"lengths", try_lengths}, {"lines", try_lines}, {"unreadable", try_unreadable},
             {"form", try_form},     {"starts", try_starts}};

// All parts, or the one that is named, with one line.
static int run_parts(const char *wanted) {
    static uint8_t old_file[MOST_BYTES];
    int run = 0;
    stored_bytes(old_state, old_file);
    for (size_t i = 0; i < sizeof PARTS / sizeof *PARTS; i++) {
        if (!wanted || strcmp(wanted, PARTS[i].name) == 0) {
            PARTS[i].run(old_file);
            run++;
        }
    }
    return run;
}

int main(int argc, char **argv) {
    seen = mmap(NULL, sizeof *seen, PROT_READ | PROT_WRITE, MAP_SHARED | MAP_ANONYMOUS, -1, 0);
    if (argc < 2 || seen == MAP_FAILED) {
        return 2;
    }
    snprintf(name, sizeof name, "%s/state.bin", argv[1]);
    snprintf(fresh_name, sizeof fresh_name, "%s.new", name);
    memset(old_state, 1, sizeof old_state);
    memset(new_state, 2, sizeof new_state);
    const char *lines[] = {NULL, wide_line(argv[1])};
    for (int i = 0; i < 2; i++) {
        if (!begin_line(lines[i])) {
            fault("a line is not accepted");
        }
        if (!run_parts(argc < 3 ? NULL : argv[2])) {
            return 2;
        }
    }
    return 0;
}
