// The elements of satellite 8195 a day after its epoch, from the store on standard input.
#include <array>
#include <cstdio>
#include <iostream>
#include <iterator>
#include <orbt.h>
#include <string>

int main() {
    std::string file{std::istreambuf_iterator<char>(std::cin), {}};
    std::uint32_t kind, flag, held, steps;
    std::array<double, ORBT_CONSTANTS> c; std::array<double, ORBT_STATE> state{}; std::array<double, ORBT_ELEMENTS> e;
    auto bytes = reinterpret_cast<const std::uint8_t *>(file.data());
    if (auto refused = orbt_restore(bytes, file.size(), 8195, &kind, &flag, c.data(), &held, state.data(), &steps)) return int(refused);
    double t = 1440.0, q[ORBT_QUESTION] = {t, c[6] + c[11] * t + c[16] * (t * t), c[8] + c[12] * t};
    if (auto refused = orbt_ask(kind, flag, c.data(), held, state.data(), q, e.data(), &steps)) return int(refused);
    std::printf("a %.17g, mean anomaly %.17g\n", e[6], e[4]);
}
