// C++ takes the header as it is. It prints the library's version.
#include "rim.h"

#include <cstdio>
#include <vector>

int main() {
    std::size_t length = 0;
    if (rim_version(nullptr, 0, &length) != RIM_ROOM)
        return 1;
    std::vector<char> text(length);
    if (rim_version(text.data(), text.size(), &length) != RIM_OK)
        return 1;
    std::printf("%.*s\n", static_cast<int>(length), text.data());
}
