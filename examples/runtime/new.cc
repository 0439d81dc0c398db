// What a program in C++ needs that uses `new`, `delete` or virtual functions: the part of libstdc++ that Debian's compiler for
// RISC-V comes without. Memory comes from `malloc`. As there are no exceptions, a `new` that finds no memory ends the program.
#include <stdlib.h>

void *operator new(size_t size) {
    void *found = malloc(size > 0 ? size : 1);
    if (found == nullptr) {
        abort();
    }
    return found;
}

void *operator new[](size_t size) {
    return operator new(size);
}

void operator delete(void *what) noexcept {
    free(what);
}

void operator delete[](void *what) noexcept {
    free(what);
}

void operator delete(void *what, size_t) noexcept {
    free(what);
}

void operator delete[](void *what, size_t) noexcept {
    free(what);
}

// A virtual function without a body was called.
extern "C" void __cxa_pure_virtual() {
    abort();
}

// Of shared libraries the destructors of static objects would be told apart by it.
extern "C" {
void *__dso_handle = nullptr;
}
