/* sites memcheck LONG [CALL] for valgrind: makes accepting calls with secret rows undefined, and says before its
 *                            complaints which call and rows they are of
 * sites ways LONG FILE       which way the branches went: FILE has a line "CALL ADDRESS" for each; prints CALL ADDRESS
 *                            INSTRUCTION WAYS, where WAYS is
 *                                one    it went one way in every accepted call
 *                                same   it went both ways, but in one order whatever the secrets were, the rest alike
 *                                leak   secrets decided which way
 * sites trace LONG           single-steps accepting calls of at most 33 coordinates: how many steps, and how many
 *                            different ways through the code there were beside the same public values
 *
 * LONG is 0 or 1: the short or the long form. CALL is the one to be made, without it all are. */
#define _GNU_SOURCE 1
#include "calls.h"

#include <signal.h>
#include <sys/mman.h>
#include <sys/wait.h>
#include <ucontext.h>
#include <unistd.h>
#include <valgrind/memcheck.h>

static int long_form;

/* ---- accepting calls */

/* Fills the rows; 1 if the call accepts them. They are then filled the same again. */
static int ready(int call, int kind) {
    uint64_t before = drawn;
    fill_rows(kind, calls[call].secret);
    uint64_t after = drawn;
    calls[call].call();
    int accepts = given[0] == PINE_ACCEPTED;
    drawn = before;
    fill_rows(kind, calls[call].secret);
    drawn = after;
    return accepts;
}

static size_t accepted, refused;

/* For each case and kind, so many times: make(call, case) where the call accepts. */
static void each_call(int call, size_t most_d, int most_times, void (*make)(int call, int c)) {
    for (int c = 0; c < CASES; c++) {
        if ((cases[c].long_form && !long_form) || cases[c].d > most_d) {
            continue;
        }
        make_rows(c);
        int times = calls[call].secret == 0 || cases[c].d > 1000 ? 1 : most_times;
        for (int kind = 0; kind < KINDS; kind++) {
            for (int k = 0; k < times * calls[call].times; k++) {
                if (ready(call, kind)) {
                    make(call, c);
                    accepted++;
                } else {
                    refused++;
                }
            }
        }
    }
}

/* ---- memcheck */

static uint64_t undefined; /* rows */

static void make_undefined(int call, int c) {
    (void)c;
    for (int r = 0; r < ROWS; r++) {
        if (undefined & BIT(r)) {
            VALGRIND_MAKE_MEM_UNDEFINED(row[r].at + row[r].from, row[r].len - row[r].from);
        }
    }
    calls[call].call();
    VALGRIND_MAKE_MEM_DEFINED(given, sizeof given);
    VALGRIND_MAKE_MEM_DEFINED(vectors, sizeof vectors);
    for (int r = 0; r < ROWS; r++) {
        VALGRIND_MAKE_MEM_DEFINED(row[r].at, row[r].len);
    }
}

/* In a process of its own, so that valgrind complains anew. */
static void complain(int call, uint64_t rows) {
    fflush(stdout);
    pid_t child = fork();
    if (child == 0) {
        char names[200] = "";
        for (int r = 0; r < ROWS; r++) {
            if (rows & BIT(r)) {
                strcat(strcat(names, *names ? "+" : ""), row_names[r]);
            }
        }
        VALGRIND_PRINTF("call %s %s\n", calls[call].name, names);
        undefined = rows;
        each_call(call, PINE_MAX_DIMENSION, long_form ? 6 : 2, make_undefined);
        if (rows == calls[call].secret) {
            printf("%-31s %6zu accepted, %5zu refused\n", calls[call].name, accepted, refused);
        }
        fflush(stdout);
        _exit(accepted == 0);
    }
    int status = 1;
    if (child < 0 || waitpid(child, &status, 0) != child || status != 0) {
        fprintf(stderr, "sites: %s: no accepting call\n", calls[call].name);
        exit(1);
    }
}

static void memcheck(const char *only) {
    for (int call = 0; call < CALLS; call++) {
        uint64_t all = calls[call].secret;
        if (only != NULL && strcmp(only, calls[call].name) != 0) {
            continue;
        }
        complain(call, all);
        for (int r = 0; r < ROWS; r++) { /* of several rows each alone */
            if ((all & BIT(r)) && all != BIT(r)) {
                complain(call, BIT(r));
            }
        }
    }
}

/* ---- ways: the first byte of each branch is made a trap, and the trap does what the branch would */

extern char __executable_start, etext; /* of the linker: this program's own code lies between */
enum { SITES = 4096 };
static struct {
    const char *call;
    uint8_t *at;
    uint8_t was;        /* its first byte */
    uint8_t condition;  /* 0 to 15, as in the instruction */
    uint8_t *next, *to; /* where it goes on */
    size_t taken, passed;         /* in accepted calls */
    size_t now_taken, now_passed; /* in this one */
    uint64_t order, first_order;
    int first_case, varies;
} site[SITES];
static size_t sites;
static int of_call[SITES], sites_of_call;

static int holds(uint8_t condition, uint64_t flags) {
    int carry = flags & 1, parity = flags >> 2 & 1, zero = flags >> 6 & 1, sign = flags >> 7 & 1;
    int over = flags >> 11 & 1;
    int of[8] = {over, carry, zero, carry | zero, sign, parity, sign != over, zero | (sign != over)};
    return of[condition >> 1] != (condition & 1);
}

static void trapped(int signal, siginfo_t *info, void *context) {
    (void)signal, (void)info;
    greg_t *r = ((ucontext_t *)context)->uc_mcontext.gregs;
    uint8_t *at = (uint8_t *)r[REG_RIP] - 1;
    for (int i = 0; i < sites_of_call; i++) {
        int s = of_call[i];
        if (site[s].at == at) {
            int taken = holds(site[s].condition, (uint64_t)r[REG_EFL]);
            *(taken ? &site[s].now_taken : &site[s].now_passed) += 1;
            site[s].order = (site[s].order ^ (uint64_t)(taken + 1)) * 0x100000001b3u;
            r[REG_RIP] = (greg_t)(taken ? site[s].to : site[s].next);
            return;
        }
    }
    _exit(3);
}

/* jcc with a displacement of one byte or of four */
static int decode(size_t s) {
    uint8_t *at = site[s].at;
    int32_t far;
    if ((at[0] & 0xf0) == 0x70) {
        site[s].next = at + 2, site[s].to = site[s].next + (int8_t)at[1];
        site[s].condition = at[0] & 15;
        return 1;
    }
    if (at[0] == 0x0f && (at[1] & 0xf0) == 0x80) {
        memcpy(&far, at + 2, 4);
        site[s].next = at + 6, site[s].to = site[s].next + far;
        site[s].condition = at[1] & 15;
        return 1;
    }
    return 0;
}

static void writable(uint8_t *at) {
    uint8_t *page = (uint8_t *)((uintptr_t)at & ~(uintptr_t)4095);
    if (mprotect(page, 4096, PROT_READ | PROT_WRITE | PROT_EXEC) != 0) {
        perror("sites: mprotect");
        exit(2);
    }
}

static void set_traps(int on) {
    for (int i = 0; i < sites_of_call; i++) {
        *site[of_call[i]].at = on ? 0xcc : site[of_call[i]].was;
    }
}

static void follow(int call, int c) {
    for (int i = 0; i < sites_of_call; i++) {
        site[of_call[i]].now_taken = site[of_call[i]].now_passed = 0, site[of_call[i]].order = 0xcbf29ce484222325u;
    }
    set_traps(1);
    calls[call].call();
    set_traps(0);
    for (int i = 0; i < sites_of_call; i++) {
        int s = of_call[i];
        site[s].taken += site[s].now_taken, site[s].passed += site[s].now_passed;
        if (site[s].first_case != c) {
            site[s].first_case = c, site[s].first_order = site[s].order;
        }
        site[s].varies |= site[s].first_order != site[s].order;
    }
}

static void ways(const char *file) {
    static const char *const names[] = {"jo", "jno", "jb", "jae", "je", "jne", "jbe", "ja",
                                        "js", "jns", "jp", "jnp", "jl", "jge", "jle", "jg"};
    FILE *from = fopen(file, "r");
    char name[64];
    unsigned long address;
    if (from == NULL) {
        perror(file);
        exit(2);
    }
    while (fscanf(from, "%63s %lx", name, &address) == 2 && sites < SITES) {
        site[sites].call = strdup(name), site[sites].at = (uint8_t *)address, site[sites].first_case = -1;
        if (address < (uintptr_t)&__executable_start || address >= (uintptr_t)&etext || !decode(sites)) {
            printf("%s %lx unknown leak\n", name, address); /* in a library */
            continue;
        }
        site[sites].was = *site[sites].at;
        writable(site[sites].at);
        sites++;
    }
    fclose(from);
    struct sigaction action = {.sa_sigaction = trapped, .sa_flags = SA_SIGINFO};
    sigaction(SIGTRAP, &action, NULL);
    for (int call = 0; call < CALLS; call++) {
        sites_of_call = 0;
        for (size_t s = 0; s < sites; s++) {
            if (strcmp(site[s].call, calls[call].name) == 0) {
                of_call[sites_of_call++] = (int)s;
            }
        }
        if (sites_of_call > 0) {
            each_call(call, PINE_MAX_DIMENSION, long_form ? 6 : 2, follow);
        }
    }
    for (size_t s = 0; s < sites; s++) {
        int both = site[s].taken > 0 && site[s].passed > 0;
        printf("%s %lx %s %s\n", site[s].call, (unsigned long)site[s].at, names[site[s].condition],
               !both ? "one" : site[s].varies ? "leak" : "same");
    }
}

/* ---- trace */

static uint64_t steps, path;
static struct {
    size_t calls, paths;
    uint64_t least, most, seen[64];
} traced;
static int traced_case, traced_call;

static void on_path(greg_t word) {
    path = (path ^ (uint64_t)word) * 0x100000001b3u;
    path ^= path >> 29;
}

/* The addresses of the instructions, and the dividends of integer divisions, which take longer for some. */
static void stepped(int signal, siginfo_t *info, void *context) {
    (void)signal, (void)info;
    const greg_t *r = ((ucontext_t *)context)->uc_mcontext.gregs;
    const uint8_t *at = (const uint8_t *)r[REG_RIP];
    at += (*at & 0xf0) == 0x40; /* REX */
    steps++;
    on_path(r[REG_RIP]);
    if (at[0] == 0xf7 && (at[1] >> 3 & 7) >= 6) { /* div, idiv */
        on_path(r[REG_RAX]), on_path(r[REG_RDX]);
    }
}

static void print_trace(void) {
    if (traced.calls > 0) {
        printf("%-31s d %5d, T %3d: %3zu calls, %3zu%s different, %9lu to %9lu steps\n", calls[traced_call].name,
               (int)cases[traced_case].d, (int)cases[traced_case].t, traced.calls, traced.paths,
               traced.paths == 64 ? " or more" : "", traced.least, traced.most);
        fflush(stdout);
    }
    memset(&traced, 0, sizeof traced);
    traced.least = UINT64_MAX;
}

static void step(int call, int c) {
    if (call != traced_call || c != traced_case) {
        print_trace();
        traced_call = call, traced_case = c;
    }
    steps = 0, path = 0xcbf29ce484222325u;
    __asm__ volatile("pushfq; orq $0x100, (%%rsp); popfq" ::: "memory", "cc");
    calls[call].call();
    __asm__ volatile("pushfq; andq $~0x100, (%%rsp); popfq" ::: "memory", "cc");
    traced.calls++;
    traced.least = steps < traced.least ? steps : traced.least;
    traced.most = steps > traced.most ? steps : traced.most;
    size_t i = 0;
    while (i < traced.paths && traced.seen[i] != path) {
        i++;
    }
    if (i == traced.paths && i < 64) {
        traced.seen[traced.paths++] = path;
    }
}

static void trace(void) {
    struct sigaction action = {.sa_sigaction = stepped, .sa_flags = SA_SIGINFO};
    sigaction(SIGTRAP, &action, NULL);
    print_trace();
    for (int call = 0; call < CALLS; call++) {
        each_call(call, 33, 1, step); /* a step takes long */
    }
    print_trace();
}

int main(int argc, char **argv) {
    if (argc < 3) {
        return 2;
    }
    long_form = argv[2][0] == '1';
    if (strcmp(argv[1], "memcheck") == 0) {
        memcheck(argv[3]); /* NULL, if there is none */
    } else if (strcmp(argv[1], "ways") == 0 && argc == 4) {
        ways(argv[3]);
    } else if (strcmp(argv[1], "trace") == 0) {
        trace();
    } else {
        return 2;
    }
    return 0;
}
