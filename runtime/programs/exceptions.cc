// Exceptions as C++ has them.
#include <cxxabi.h>
#include <exception>
#include <future>
#include <new>
#include <stdexcept>
#include <string>
#include <typeinfo>
#include <vector>

#include "test.h"

static void depths() {
    for (int frames : {0, 1, 2, 10, 100, 1000, 20000})
        try {
            throw_below(frames, frames + 1);
        } catch (int n) {
            printf("%d frames: %d, alive %d\n", frames, n, alive);
        }
}

struct Base {
    virtual ~Base() {}
    int base = 1;
};
struct Left : virtual Base {
    int left = 2;
};
struct Right : virtual Base {
    int right = 3;
};
struct Both : Left, Right {
    int both = 4;
};

// Throws what the bits say, catches some of it, and throws again.
NOINLINE static void throw_by(int bits) {
    Counted counted;
    try {
        Counted inner;
        if (bits & 1)
            throw bits;
        if (bits & 2)
            throw std::string("text");
        if (bits & 4)
            throw Both();
        if (bits & 8)
            throw std::bad_alloc();
    } catch (int n) {
        if (bits & 16)
            throw;
        throw std::logic_error("in place of an int");
    } catch (const std::string &text) {
        if (bits & 16)
            throw 2.5;
        printf("%d: handled %s\n", bits, text.c_str());
    }
}

static void nesting() {
    for (int bits = 0; bits < 32; bits++)
        try {
            throw_by(bits);
        } catch (int n) {
            printf("%d: int %d\n", bits, n);
        } catch (double number) {
            printf("%d: double %g\n", bits, number);
        } catch (Right &right) {
            printf("%d: base class %d %d\n", bits, right.right, right.base);
        } catch (std::exception &exception) {
            printf("%d: %s\n", bits, exception.what());
        }
    printf("alive %d\n", alive);
}

// Each destructor throws and catches while another exception is on its way.
struct Throws {
    int level;
    ~Throws() {
        if (level == 0)
            return;
        try {
            Throws below{level - 1};
            throw level;
        } catch (int n) {
            printf("in the cleanup of level %d: %d\n", level, n);
        }
    }
};

static void in_cleanups() {
    try {
        Throws throws{4};
        throw std::string("outer");
    } catch (std::string &text) {
        printf("then %s, uncaught %d\n", text.c_str(), std::uncaught_exceptions());
    }
}

static void pointers() {
    std::exception_ptr kept;
    try {
        throw_below(3, 5);
    } catch (...) {
        kept = std::current_exception();
    }
    for (int i = 0; i < 3; i++)
        try {
            std::rethrow_exception(kept);
        } catch (int n) {
            printf("thrown again %d\n", n);
        }
    auto result = std::async(std::launch::async, [] { return throw_below(7, 8); });
    try {
        result.get();
    } catch (int n) {
        printf("of another thread %d\n", n);
    }
    try {
        try {
            throw std::runtime_error("inner");
        } catch (...) {
            std::throw_with_nested(std::logic_error("outer"));
        }
    } catch (std::exception &outer) {
        try {
            std::rethrow_if_nested(outer);
        } catch (std::exception &inner) {
            printf("%s in %s\n", inner.what(), outer.what());
        }
    }
}

NOINLINE static void nothing() noexcept { throw_below(2, 1); }
struct BadDestructor {
    ~BadDestructor() noexcept(false) { throw 2; }
};

static void ends() {
    in_child("out of noexcept", [] {
        try {
            nothing();
        } catch (...) {
        }
    });
    in_child("no handler", [] { throw_below(2, 1); });
    in_child("two at once", [] {
        try {
            BadDestructor bad;
            throw 1;
        } catch (...) {
        }
    });
    in_child("none to throw again", [] { throw; });
    in_child("terminate's handler", [] {
        std::set_terminate([] {
            printf("terminated by %s\n", abi::__cxa_current_exception_type()->name());
            fflush(stdout);
            _exit(3);
        });
        nothing();
    });
}

static void library() {
    try {
        std::vector<int>().at(3);
    } catch (std::out_of_range &) {
        printf("out of range\n");
    }
    try {
        std::stoi("q");
    } catch (std::invalid_argument &) {
        printf("not a number\n");
    }
    try {
        delete[] new char[hidden((size_t)1 << 62)];
    } catch (std::bad_alloc &) {
        printf("no memory\n");
    }
    try {
        Base base;
        dynamic_cast<Left &>(*hidden(&base));
    } catch (std::bad_cast &) {
        printf("bad cast\n");
    }
    try {
        printf("%s\n", typeid(*hidden((Base *)nullptr)).name());
    } catch (std::bad_typeid &) {
        printf("no type\n");
    }
}

// Many kinds of handlers in one function: a long LSDA.
NOINLINE static int choose(int which) {
    try {
        switch (which) {
        case 0: throw (char)0;
        case 1: throw (short)1;
        case 2: throw 2;
        case 3: throw 3l;
        case 4: throw 4u;
        case 5: throw 5.f;
        case 6: throw "six";
        default: throw 7.;
        }
    } catch (char) {
        return 0;
    } catch (short) {
        return 1;
    } catch (int) {
        return 2;
    } catch (long) {
        return 3;
    } catch (unsigned) {
        return 4;
    } catch (float) {
        return 5;
    } catch (const char *) {
        return 6;
    }
}

int main() {
    setvbuf(stdout, nullptr, _IOLBF, 0);
    depths();
    nesting();
    in_cleanups();
    pointers();
    ends();
    library();
    for (int which = 0; which < 7; which++)
        printf("%d ", choose(which));
    try {
        choose(7);
    } catch (double number) {
        printf("%g\n", number);
    }
}
