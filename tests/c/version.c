/* The library tells the version that its header has. Exit status 0: it does. */
#include <stdio.h>

#include "furzeladle.h"

int main(void)
{
    const uint32_t told = furzeladle_version();

    if (told != FURZELADLE_VERSION) {
        printf("version: %lu, not %d\n", (unsigned long)told, FURZELADLE_VERSION);
        return 1;
    }
    printf("version.c: ok\n");
    return 0;
}
