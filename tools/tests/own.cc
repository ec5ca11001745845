// A program with operators new of its own.
#include <cstdlib>
#include <new>

void *operator new(std::size_t size)
{
    void *p = std::malloc(size + 100);
    if (!p) throw std::bad_alloc();
    return p;
}

void operator delete(void *p) noexcept { std::free(p); }

void operator delete(void *p, std::size_t) noexcept { std::free(p); }

void *asks() { return operator new(1); }

char *asks_many() { return new char[2]; }

void *asks_quietly() { return operator new(3, std::nothrow); }

int main()
{
    operator delete(asks());
    delete[] asks_many();
    operator delete(asks_quietly());
}
