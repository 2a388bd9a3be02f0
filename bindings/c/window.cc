// One window, from C++: the first of the program's example.
#include "huqabo.h"

#include <cstdio>
#include <iterator>

int main()
{
    // The square of a tilt that is corrected for temperature; station.c has it line by line.
    const uint8_t tilt[] = {8, 0, 0, 0, 1, 1, 0x80, 0x80, 0xa0, 1, 3, 1, 2, 1, 0x80, 0x0c, 4, 3, 4, 3, 0, 5, 6, 6};
    huqabo_box box = {};
    box.lower[0] = 64225;
    box.upper[0] = 66191;
    box.lower[1] = 1179648;
    box.upper[1] = 1245184;
    box.channels = 2;
    box.centre = 65208;
    huqabo_answer answer;
    huqabo_fixed_windows(tilt, std::size(tilt), 7, &box, 1, &answer, 1);
    if (answer.refusal != 0) {
        return 1;
    }
    std::printf("window 1: middle %lld margin %lld\n", static_cast<long long>(answer.middle), static_cast<long long>(answer.margin));
    return 0;
}
