/* Prints what the functions with a body in the header return. */
#include <stdio.h>
#include "filbozseg.h"

int main(void)
{
    uint32_t number;
    printf("%lu %s %d\n", (unsigned long)filbozseg_version(), filbozseg_version_text(), FILBOZSEG_BOOK);
    for (number = 0; number <= 300; number++)
        printf("%lu %s\n", (unsigned long)FILBOZSEG_REFUSED(256 + number), filbozseg_refusal_text(number));
    printf("%s\n", filbozseg_refusal_text(UINT32_MAX));
    return 0;
}
