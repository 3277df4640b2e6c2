/* Stands in for the C library's header, which the kit's compiler lacks. */
int printf(const char *, ...);
