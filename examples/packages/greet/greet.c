#include <stdio.h>
#include "greet.h"

const char greet_home[] = OWN_PATH;

void greet(const char *name) { printf("hello, %s\n", name); }
