// How long client 1 may have to wait for its third request, by the plan file on standard input.
#include <stdio.h>
#include "gwelathur.h"

int main(void)
{
    uint8_t plan[4096];
    size_t wait, size = fread(plan, 1, sizeof plan, stdin);
    size_t refusal = gwelathur_wait(plan, size, 1, 3, &wait);
    printf(refusal ? "refusal %zu\n" : "%zu slots\n", refusal ? refusal : wait);
    return refusal != 0;
}
