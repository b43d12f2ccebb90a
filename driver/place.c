/*
 * Where the archive's code lies for the benchmark: what is linked next begins so many
 * bytes past a multiple of 64.
 */
__asm__(".section .text.place, \"ax\"\n"
        ".balign 64\n"
        ".skip 64 + " PLACE "\n"
        ".text\n");

extern int no_empty_unit;
