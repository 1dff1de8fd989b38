#ifndef PORT_MEMORY_H
#define PORT_MEMORY_H
#include <string.h>
#endif
