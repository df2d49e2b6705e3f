/* The check on Linux: the number of cases is its argument. */
#include <stdio.h>
#include <stdlib.h>

#include "platform.h"
#include "spoil.h"

void put(const char *text) { fputs(text, stdout); }

int main(int count, char **arguments) {
    spoil();
    return check(count > 1 ? (uint32_t)atoi(arguments[1]) : CASES);
}
