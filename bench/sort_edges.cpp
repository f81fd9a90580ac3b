// Sorts edges that look random, by start and then by end, and prints the least of three times in seconds.
// The argument is their number. growth.py takes this time as the measure of the machine.
#include <algorithm>
#include <array>
#include <chrono>
#include <cstdint>
#include <cstdio>
#include <cstdlib>
#include <limits>
#include <random>
#include <vector>

using Edge = std::array<std::int32_t, 4>;

int main(int count_of_words, char **words) {
    const long count = count_of_words > 1 ? std::atol(words[1]) : 0;
    std::mt19937 random(1);
    std::vector<Edge> edges(count);
    for (Edge &edge : edges)
        for (std::int32_t &coordinate : edge) coordinate = static_cast<std::int32_t>(random());
    double least = std::numeric_limits<double>::infinity();
    std::int64_t sum = 0;
    for (int time = 0; time < 3; ++time) {
        std::vector<Edge> sorted = edges;
        const auto start = std::chrono::steady_clock::now();
        std::sort(sorted.begin(), sorted.end());
        const std::chrono::duration<double> taken = std::chrono::steady_clock::now() - start;
        least = std::min(least, taken.count());
        // what was sorted is looked at, so that no compiler leaves the sort out
        if (count > 0) sum += sorted[count / 2][0];
    }
    std::printf("%.9f %lld\n", least, static_cast<long long>(sum));
}
