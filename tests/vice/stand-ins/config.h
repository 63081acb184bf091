/* Stands in for what VICE's configure script writes: the little that the five files ask of it. */
#define HAVE_INTTYPES_H 1
#define HAVE_OFF_T 1
#define HAVE_OFF_T_IN_SYS_TYPES 1
