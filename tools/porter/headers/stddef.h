#ifndef PORT_STDDEF_H
#define PORT_STDDEF_H
typedef unsigned int size_t;
typedef int ptrdiff_t;
typedef int wchar_t;
#define NULL ((void *)0)
#ifndef offsetof
#define offsetof(type, member) offsetof(type, member)
#endif
#endif
