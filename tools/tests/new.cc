// Functions that allocate by C++'s operators.
#include <cstddef>
#include <new>

char *owner() { return static_cast<char *>(operator new(4321)); }

char *owners() { return new char[1234]; }

char *quiet() { return static_cast<char *>(operator new(4322, std::nothrow)); }

char *quiets() { return new (std::nothrow) char[1235]; }

void *wide() { return operator new(512, std::align_val_t(64)); }

namespace shop {
struct part { char bytes[50]; };

// Two whose names begin alike for more than 32 bytes.
template <class T> T *make_a_part_of_the_whole(T *, int, long) { return new T; }

template <class T> T *make_a_part_of_the_whole(T *, int, char) { return new T; }
}

int main()
{
    operator delete(owner());
    delete[] owners();
    operator delete(quiet(), std::nothrow);
    delete[] quiets();
    operator delete(wide(), std::align_val_t(64));
    delete shop::make_a_part_of_the_whole(static_cast<shop::part *>(nullptr), 1, 2L);
    delete shop::make_a_part_of_the_whole(static_cast<shop::part *>(nullptr), 1, 'c');
}
