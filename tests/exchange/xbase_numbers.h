// Readers of numbers for libxbase64, which takes those of the program that uses it. Its own ones read four bytes as its
// long, which has eight on this processor.
#pragma once
#include <xbase64/xbase64.h>
#include <cstdint>
#include <cstring>

xbLong xbXBase::GetLong(const char *p) {
    int32_t number;
    std::memcpy(&number, p, sizeof number);
    return number;
}

xbULong xbXBase::GetULong(const char *p) {
    uint32_t number;
    std::memcpy(&number, p, sizeof number);
    return number;
}
