/* What include/wheel.h and face.c need of <stddef.h>, for the kit's compiler, which comes with no headers. */
#ifndef ARCHIVE_STDDEF_H
#define ARCHIVE_STDDEF_H
typedef __SIZE_TYPE__ size_t;
#define offsetof(type, member) __builtin_offsetof(type, member)
#endif
