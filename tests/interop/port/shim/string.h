/* The host's, and the one function more that TF-A's has. */
#ifndef SHIM_STRING_H
#define SHIM_STRING_H
#include_next <string.h>
size_t shim_strlcpy(char *to, const char *from, size_t bytes);
#define strlcpy shim_strlcpy
#endif
