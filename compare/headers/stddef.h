/* What include/esa.h needs of it on x86-64: the kit's compiler comes without headers. */
typedef unsigned long size_t;
#define NULL ((void *)0)
