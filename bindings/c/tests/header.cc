// cimaroly.h in C++: it compiles without a warning, and its calls link.
#include "cimaroly.h"

#include <cstring>

int main()
{
    const uint8_t name[] = {0x30, 0x00};
    uint8_t out[sizeof name];
    size_t size = 0;
    cimaroly_verdict verdict;
    if (cimaroly_check(CIMAROLY_NAME, name, sizeof name, &verdict) != CIMAROLY_OK)
        return 1;
    if (cimaroly_encode_malloc(CIMAROLY_NAME, name, sizeof name, out, sizeof out, &size) != CIMAROLY_OK)
        return 2;
    if (size != sizeof name || std::memcmp(out, name, size) != 0)
        return 3;
    if (cimaroly_version() != CIMAROLY_VERSION_NUMBER)
        return 4;
    return std::strcmp(cimaroly_error_name(verdict.error), "") == 0 ? 0 : 5;
}
