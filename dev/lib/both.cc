// SPDX-License-Identifier: MIT
// The header in C++, and handles of each of two libraries that are loaded side by side: for dev/check-lib.sh.
#include <cstdio>
#include <dlfcn.h>
#include <tora.h>

using New = decltype(&tora_core_new);
using Free = decltype(&tora_core_free);
using NewWorld = decltype(&tora_world_new);
using Line = decltype(&tora_world_line);

int main(int count, char **words) {
    const uint32_t two[] = {2};
    tora_core cores[2] = {TORA_CORE_NULL, TORA_CORE_NULL};
    tora_world worlds[2] = {TORA_WORLD_NULL, TORA_WORLD_NULL};
    const tora_times times = TORA_STANDARD_TIMES;
    const uint8_t line[] = {'n', 'e', 'e', 'd', 's'};
    size_t length = 0;
    if (count != 3) return 2;
    for (int at = 0; at < 2; at++) {
        void *library = dlopen(words[at + 1], RTLD_NOW | RTLD_LOCAL);
        if (!library) return 2;
        auto make = reinterpret_cast<New>(dlsym(library, "tora_core_new"));
        auto let_go = reinterpret_cast<Free>(dlsym(library, "tora_core_free"));
        if (make(&cores[at], 1, two, 1, two, 1, TORA_PLAIN) != TORA_OK) return 1;
        if (at == 1) let_go(&cores[1]);
        auto make_world = reinterpret_cast<NewWorld>(dlsym(library, "tora_world_new"));
        auto take_line = reinterpret_cast<Line>(dlsym(library, "tora_world_line"));
        if (make_world(&worlds[at], TORA_STANDARD_LIMITS, TORA_PLAIN, &times) != TORA_OK) return 1;
        if (take_line(&worlds[at], line, sizeof line, &length) != TORA_OK || length == 0) return 1;
    }
    // what one library made is freed by the one that this program is linked with: both take memory of the C library
    tora_core_free(&cores[0]);
    for (auto &world : worlds) tora_world_free(&world);
    std::puts("both: two libraries in one process");
    return cores[0].at || cores[1].at;
}
