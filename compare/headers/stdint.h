/* What include/esa.h needs of it on x86-64: the kit's compiler comes without headers. */
typedef unsigned char uint8_t;
typedef unsigned short uint16_t;
typedef unsigned int uint32_t;
typedef unsigned long uint64_t;
