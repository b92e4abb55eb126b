#include "csum_fold.h" /* cut from the kernel's asm/checksum_64.h by bench/run */
