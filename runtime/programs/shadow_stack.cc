/* A processor's shadow stack, in software: a child throws, and its parent has it do one instruction after the other. What calls put
 * on the shadow stack, returns have to find there; rdssp reads its pointer and incssp moves it, neither of which this processor
 * needs to have. Signals put a token and the address of the trampoline there, as Linux does on x86-64. */
#include <array>
#include <cinttypes>
#include <csignal>
#include <cstdint>
#include <cstdio>
#include <cstdlib>
#include <cstring>
#include <sys/ptrace.h>
#include <sys/user.h>
#include <sys/wait.h>
#include <unistd.h>
#include <unordered_map>
#include <vector>

/* ---- what is thrown */

static volatile int cleaned;

struct Cleanup {
    ~Cleanup() { cleaned = cleaned + 1; }
};

/* Without a personality below the handler. */
__attribute__((noinline)) static int deep(int depth) {
    if (depth == 0)
        throw 1;
    return deep(depth - 1) + 1;
}

__attribute__((noinline)) static int down(int depth) {
    Cleanup cleanup;
    return depth == 0 ? deep(0) : down(depth - 1) + 1;
}

template <class Body> static bool is_caught(Body body) {
    try {
        body();
    } catch (int) {
        return true;
    }
    return false;
}

static void again() {
    try {
        down(2);
    } catch (int) {
        throw;
    }
}

static void handle(int) { down(1); }

static int *volatile nowhere;

static void crash() {
    signal(SIGSEGV, handle);
    *nowhere = 1;
}

static volatile int handled;

static void count(int) { handled = handled + 1; }

static bool is_handled() {
    signal(SIGUSR2, count);
    raise(SIGUSR2);
    return handled == 1;
}

static int test() {
    int failures = 0;
    for (int depth : {0, 1, 300}) /* incssp takes 255 words at most */
        failures += !is_caught([=] { deep(depth); });
    failures += !is_caught([] { down(4); });
    failures += !is_caught(again);
    failures += !is_handled();
    failures += !is_caught(crash);
    failures += !is_caught([] { down(2); });
    return failures || cleaned != 5 + 3 + 2 + 3;
}

/* ---- the parent */

enum { NOT_TRACED = 77 };

static pid_t child;
static std::vector<uint64_t> shadow; /* the last is the top */
static uint64_t times_read, words_cut; /* how often, and by how many words */

/* The pointer of a stack of so many words. */
static uint64_t pointer() { return 0x100000000 - 8 * (uint64_t)shadow.size(); }

static uint64_t word_at(uint64_t address) { return (uint64_t)ptrace(PTRACE_PEEKDATA, child, (void *)address, nullptr); }

/* The bytes of code at an address, of which each is read once. */
static const uint8_t *code_at(uint64_t address) {
    static std::unordered_map<uint64_t, std::array<uint8_t, 16>> known;
    auto [at, is_new] = known.try_emplace(address);
    for (int i = 0; i < 2 && is_new; i++) {
        uint64_t word = word_at(address + 8 * i);
        memcpy(&at->second[8 * i], &word, 8);
    }
    return at->second.data();
}

static unsigned long long &register_of(user_regs_struct &r, unsigned number) {
    unsigned long long *all[] = {&r.rax, &r.rcx, &r.rdx, &r.rbx, &r.rsp, &r.rbp, &r.rsi, &r.rdi,
                                 &r.r8,  &r.r9,  &r.r10, &r.r11, &r.r12, &r.r13, &r.r14, &r.r15};
    return *all[number];
}

enum Kind { OTHER, CALL, RETURN, READ, INCREASE, SIGRETURN };

struct Instruction {
    Kind kind;
    unsigned number, length; /* of the register, of READ and INCREASE */
};

static Instruction decode(const uint8_t *bytes, const user_regs_struct &r) {
    unsigned at = 0;
    bool repeats = false;
    while (strchr("\xf2\xf3\x2e\x3e\x64\x65\x66\x67", bytes[at]) && bytes[at])
        repeats |= bytes[at++] == 0xf3;
    unsigned rex = 0;
    if ((bytes[at] & 0xf0) == 0x40)
        rex = bytes[at++];
    const uint8_t *code = bytes + at;
    unsigned number = (code[2] & 7) + (rex & 1) * 8;
    if (code[0] == 0xe8 || (code[0] == 0xff && (code[1] >> 3 & 7) == 2))
        return {CALL, 0, 0};
    if (code[0] == 0xc3 || code[0] == 0xc2)
        return {RETURN, 0, 0};
    if (repeats && rex & 8 && code[0] == 0x0f && code[1] == 0x1e && code[2] >> 3 == 0x19)
        return {READ, number, at + 3};
    if (repeats && rex & 8 && code[0] == 0x0f && code[1] == 0xae && code[2] >> 3 == 0x1d)
        return {INCREASE, number, at + 3};
    if (code[0] == 0x0f && code[1] == 0x05 && r.rax == 15)
        return {SIGRETURN, 0, 0};
    return {OTHER, 0, 0};
}

static bool fail(const char *what, const user_regs_struct &r) {
    printf("shadow stack: %s at %#llx, with %zu words\n", what, r.rip, shadow.size());
    kill(child, SIGKILL);
    return false;
}

/* What the instruction before did to the shadow stack. False where it doesn't hold what it should. */
static bool follow(const Instruction &done, user_regs_struct &r) {
    switch (done.kind) {
    case CALL:
        shadow.push_back(word_at(r.rsp));
        return true;
    case RETURN:
        if (!shadow.empty() && shadow.back() != r.rip)
            return fail("another return address", r);
        if (!shadow.empty())
            shadow.pop_back();
        return true;
    case READ:
        register_of(r, done.number) = pointer();
        ptrace(PTRACE_SETREGS, child, nullptr, &r);
        times_read++;
        return true;
    case SIGRETURN:
        if (shadow.empty() || !(shadow.back() >> 63))
            return fail("no token", r);
        shadow.pop_back();
        return true;
    default:
        return true;
    }
}

/* Has the child go on from the instruction, without doing it where it is one that needs a shadow stack. */
static bool skip(const Instruction &next, user_regs_struct &r) {
    uint64_t words = register_of(r, next.number) & 0xff;
    if (words > shadow.size())
        return fail("too few words", r);
    shadow.resize(shadow.size() - words);
    words_cut += words;
    r.rip += next.length;
    ptrace(PTRACE_SETREGS, child, nullptr, &r);
    return true;
}

static int watch() {
    int status;
    Instruction done = {OTHER, 0, 0};
    waitpid(child, &status, 0);
    if (WIFEXITED(status) && WEXITSTATUS(status) == NOT_TRACED) {
        puts("shadow stack: not tested, since a process may not be traced here");
        return 0;
    }
    for (long number = 0;;) {
        user_regs_struct r;
        ptrace(PTRACE_GETREGS, child, nullptr, &r);
        if (number) { /* it is at the first instruction of a handler */
            shadow.push_back(pointer() | (uint64_t)1 << 63);
            shadow.push_back(word_at(r.rsp));
        } else if (!follow(done, r)) {
            return 1;
        }
        number = 0;
        done = decode(code_at(r.rip), r);
        while (done.kind == INCREASE) {
            if (!skip(done, r))
                return 1;
            done = decode(code_at(r.rip), r);
        }
        uint64_t before = r.rip;
        ptrace(PTRACE_SINGLESTEP, child, nullptr, nullptr);
        waitpid(child, &status, 0);
        if (WIFEXITED(status)) {
            printf("shadow stack: status %d, read %" PRIu64 " times, cut by %" PRIu64 " words\n", WEXITSTATUS(status),
                   times_read, words_cut);
            return WEXITSTATUS(status) || !times_read || !words_cut;
        }
        if (WIFSIGNALED(status)) {
            printf("shadow stack: ended by signal %d\n", WTERMSIG(status));
            return 1;
        }
        if (WSTOPSIG(status) != SIGTRAP) { /* before the instruction or after it */
            number = WSTOPSIG(status);
            ptrace(PTRACE_GETREGS, child, nullptr, &r);
            if (r.rip != before && !follow(done, r))
                return 1;
            ptrace(PTRACE_SINGLESTEP, child, nullptr, (void *)number);
            waitpid(child, &status, 0);
        }
    }
}

int main() {
    child = fork();
    if (child == 0) {
        if (ptrace(PTRACE_TRACEME, 0, nullptr, nullptr) != 0)
            _exit(NOT_TRACED);
        raise(SIGSTOP);
        _exit(test());
    }
    return watch();
}
