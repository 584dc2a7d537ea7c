// The same load on a std::mutex: four threads take as many turns each as stated, and each turn adds to a count.
#include <cstdint>
#include <cstdio>
#include <cstdlib>
#include <mutex>
#include <thread>
#include <vector>

int main(int argc, char **argv) {
    if (argc != 3) {
        std::fprintf(stderr, "words: turns of each thread; rounds\n");
        return 2;
    }
    const unsigned long each = std::strtoul(argv[1], nullptr, 10);
    const unsigned long rounds = std::strtoul(argv[2], nullptr, 10);
    std::uint64_t turns = 0;
    for (unsigned long round = 0; round < rounds; ++round) {
        std::mutex lock;
        std::uint64_t count = 0;
        std::vector<std::thread> threads;
        for (int thread = 0; thread < 4; ++thread) {
            threads.emplace_back([&] {
                for (unsigned long turn = 0; turn < each; ++turn) {
                    std::lock_guard<std::mutex> held(lock);
                    ++count;
                }
            });
        }
        for (std::thread &thread : threads) {
            thread.join();
        }
        turns += count;
    }
    std::printf("turns of four threads: %llu\n", static_cast<unsigned long long>(turns));
}
