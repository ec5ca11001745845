// A library of C++ that a program of C loads.
#include <new>

extern "C" void *allocates()
{
    delete[] new char[777];
    delete new (std::nothrow) long;
    return nullptr;
}
