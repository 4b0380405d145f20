/* Prints the archive's version; ends with 1 where it is not the header's. `../check` builds and runs it. */
#include <stdio.h>

#include "spatialjoin.h"

int main(void)
{
    unsigned long version = (unsigned long)spatialjoin_version();
    printf("%lu.%lu.%lu\n", version / 65536, version / 256 % 256, version % 256);
    return !SPATIALJOIN_VERSION_MATCHES();
}
