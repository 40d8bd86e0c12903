/* What the headers of Python are to know of a machine in place of pyconfig.h: the sizes of LP64. So the module of dist/ is the same on each
 * machine that has these headers, and for aarch64 no Python has to be configured. */
#define SIZEOF_SHORT 2
#define SIZEOF_INT 4
#define SIZEOF_LONG 8
#define SIZEOF_LONG_LONG 8
#define SIZEOF_VOID_P 8
#define SIZEOF_SIZE_T 8
#define SIZEOF_WCHAR_T 4
#define HAVE_SYS_TYPES_H 1
#define HAVE_UNISTD_H 1
