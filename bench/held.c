// Runs a program instruction by instruction, and prints, each time that it gave up a lock, for how many instructions it held
// it. What the program itself prints is lost. A lock is a word that is 1 while it is free and that a compare and exchange makes
// 0, as the one of std's Mutex. Of locks that are held at once the first counts, and of threads the first. It knows x86-64 on
// Linux.
// usage: held PROGRAM [ARGUMENT ..]
#include <inttypes.h>
#include <signal.h>
#include <stdio.h>
#include <stdlib.h>
#include <string.h>
#include <sys/ptrace.h>
#include <sys/user.h>
#include <sys/wait.h>
#include <unistd.h>

static pid_t child;

static uint64_t word(uint64_t at) { return (uint64_t)ptrace(PTRACE_PEEKDATA, child, at, NULL); }

static struct user_regs_struct registers(void) {
    struct user_regs_struct found;
    if (ptrace(PTRACE_GETREGS, child, NULL, &found)) exit(1);
    return found;
}

static uint64_t numbered(const struct user_regs_struct *r, unsigned number) {
    const uint64_t all[] = {r->rax, r->rcx, r->rdx, r->rbx, r->rsp, r->rbp, r->rsi, r->rdi,
                            r->r8, r->r9, r->r10, r->r11, r->r12, r->r13, r->r14, r->r15};
    return all[number];
}

static uint64_t displaced(const uint8_t *at, unsigned mode) {
    int32_t wide;
    memcpy(&wide, at, sizeof wide);
    return mode == 1 ? (uint64_t)(int8_t)*at : mode == 2 ? (uint64_t)wide : 0;
}

// Where the operand in memory is whose description stands at `at`; 0 if no register leads to it.
static uint64_t operand(const struct user_regs_struct *r, const uint8_t *at, unsigned prefix) {
    unsigned mode = at[0] >> 6, base = at[0] & 7;
    if (mode == 3 || (mode == 0 && base == 5)) return 0;
    if (base != 4) return numbered(r, base | (prefix & 1) << 3) + displaced(at + 1, mode);
    unsigned index = (at[1] >> 3 & 7) | (prefix & 2) << 2;
    base = at[1] & 7;
    if (mode == 0 && base == 5) return 0;
    uint64_t scaled = index == 4 ? 0 : numbered(r, index) << (at[1] >> 6);
    return numbered(r, base | (prefix & 1) << 3) + scaled + displaced(at + 2, mode);
}

// The word that the next instruction is to make 0 if it is 1; 0 if the instruction is another.
static uint64_t lock_to_take(const struct user_regs_struct *r) {
    uint8_t code[16];
    uint64_t words[2] = {word(r->rip), word(r->rip + 8)};
    memcpy(code, words, sizeof code);
    unsigned at = 1, prefix = (code[1] & 0xf0) == 0x40 ? code[at++] : 0;
    if (code[0] != 0xf0 || code[at] != 0x0f || code[at + 1] != 0xb1) return 0;
    uint64_t made = numbered(r, (code[at + 2] >> 3 & 7) | (prefix & 4) << 1);
    return r->rax == 1 && made == 0 ? operand(r, code + at + 2, prefix) : 0;
}

// Lets the program do one instruction, or take a signal. Answers whether it is still there.
static int step(int *status) {
    int signal = WIFSTOPPED(*status) && WSTOPSIG(*status) != SIGTRAP ? WSTOPSIG(*status) : 0;
    if (ptrace(PTRACE_SINGLESTEP, child, NULL, signal)) exit(1);
    if (waitpid(child, status, 0) != child) exit(1);
    return WIFSTOPPED(*status);
}

int main(int count, char **words) {
    int status;
    if (count < 2) return 2;
    child = fork();
    if (child == 0) {
        if (!freopen("/dev/null", "w", stdout)) _exit(127);
        ptrace(PTRACE_TRACEME, 0, NULL, NULL);
        execv(words[1], words + 1);
        _exit(127);
    }
    if (child < 0 || waitpid(child, &status, 0) != child || !WIFSTOPPED(status)) return 1;
    uint64_t lock = 0, held = 0;
    for (;;) {
        struct user_regs_struct before = registers();
        uint64_t wanted = lock ? 0 : lock_to_take(&before);
        if (!step(&status)) break;
        // (one that repeats itself is stepped through, and counts once)
        held += registers().rip != before.rip;
        if (wanted && word(wanted) == 0) {
            lock = wanted;
            held = 0;
        } else if (lock && word(lock) == 1) {
            printf("%" PRIu64 "\n", held);
            lock = 0;
        }
    }
    return WIFEXITED(status) ? WEXITSTATUS(status) : 1;
}
