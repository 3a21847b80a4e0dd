/* A refusal that nobody sees: the result of a call is dropped. The compiler says so: unused-result. */
#include "rights.h"

static uint64_t image[RIGHTS_LISTS_WORDS];

int main(void)
{
    rights_lists_fresh(image, RIGHTS_LISTS_WORDS);
    return 0;
}
