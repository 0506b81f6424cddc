/* See said.h. */
#include "said.h"

#include <stdio.h>
#include <stdlib.h>

void said(int result)
{
    if (result < 0) {
        perror("writing");
        exit(2);
    }
}

void all_said(void)
{
    said(fflush(stdout));
}
