/* The header and no call: it is compiled without a warning, as of something unused, and needs no archive. */
#include "nethazel.h"

int main(void)
{
    return 0;
}
