/* What include/esa.h needs of it: the kit's compiler comes without headers. */
#define bool _Bool
#define false 0
#define true 1
