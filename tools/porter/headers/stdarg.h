#ifndef PORT_STDARG_H
#define PORT_STDARG_H
typedef char *va_list;
#endif
