// Async and finish by oneTBB's task_group, on as many threads as the last word says, to be measured beside
// `spd run`. Words: fib, finishes or asyncs, a count, how often it is done, and the threads.

#include <atomic>
#include <cstdint>
#include <cstdlib>
#include <iostream>
#include <string>
#include <tbb/global_control.h>
#include <tbb/task_group.h>

// What runs beside one another until it has ended, and the sum of what it offers.
struct Finish {
    tbb::task_group running;
    std::atomic<std::int64_t> sum{0};

    void fib(std::int64_t n) {
        if (n < 2) {
            sum.fetch_add(n);
            return;
        }
        running.run([this, n] { fib(n - 1); });
        fib(n - 2);
    }
};

static std::int64_t once(const std::string& kind, std::int64_t count) {
    if (kind == "finishes") {
        for (std::int64_t i = 0; i < count; i++) {
            Finish finish;
            finish.running.run([] {});
            finish.running.wait();
        }
        return count;
    }
    Finish finish;
    if (kind == "fib") {
        finish.fib(count);
    } else if (kind == "asyncs") {
        for (std::int64_t i = 0; i < count; i++) {
            finish.running.run([&finish, i] { finish.sum.fetch_add(i); });
        }
    } else {
        std::abort();
    }
    finish.running.wait();
    return finish.sum.load();
}

int main(int, char** words) {
    tbb::global_control threads(tbb::global_control::max_allowed_parallelism, std::stoul(words[4]));
    std::int64_t total = 0;
    for (std::int64_t i = 0; i < std::stoll(words[3]); i++) {
        total += once(words[1], std::stoll(words[2]));
    }
    std::cout << total << "\n";
}
