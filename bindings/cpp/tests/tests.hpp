// What the tests share.
#pragma once

#include "likes_core.hpp"

#include <cstdlib>
#include <iostream>

// Ends with status 1 and a line where something is wrong.
inline void hold(bool is_right, const char *text) {
    if (!is_right) {
        std::cout << "wrong: " << text << "\n";
        std::exit(1);
    }
}

// The status that a call throws, or LIKES_OK.
template <typename Call> std::uint32_t thrown(Call call) {
    try {
        call();
    } catch (const likes::Error &error) {
        return error.status;
    }
    return LIKES_OK;
}
