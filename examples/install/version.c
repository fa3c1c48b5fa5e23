/* Prints the version of the header and that of the archive. See ./run. */
#include <stdio.h>
#include <nuprikhen.h>

int main(void) {
    printf("%d.%d.%d %lu\n", NUP_VERSION_MAJOR, NUP_VERSION_MINOR, NUP_VERSION_PATCH, (unsigned long)nup_version());
    return nup_version() != NUP_VERSION;
}
