/* The header, of which nothing is used: it must compile without a warning. */
#include "drifters_eqf.h"

int main(void)
{
    return 0;
}
