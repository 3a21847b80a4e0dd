/* A null pointer, also where the length is 0. The compiler says so: nonnull. */
#include "rights.h"

int main(void)
{
    return (int)rights_lists_inspect(NULL, 0);
}
