/* The library tells the header's version. */
#include "bulgefs.h"

int main(void)
{
    return bulgefs_version() == BULGEFS_VERSION ? 0 : 1;
}
