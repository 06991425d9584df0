#include <greet.h>
#include <stdio.h>

int main(void) {
    greet("world");
    printf("greeted by %s\n", greet_home);
    return 0;
}
