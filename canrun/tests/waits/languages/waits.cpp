// Waits of C++: prints of each `NAME MILLISECONDS MICROSECONDS RESULT`. See ../main.c.
#include <chrono>
#include <condition_variable>
#include <cstdio>
#include <cstring>
#include <future>
#include <mutex>
#include <shared_mutex>
#include <sys/wait.h>
#include <thread>
#include <unistd.h>

using namespace std::chrono_literals;
using std::chrono::steady_clock;
using std::chrono::system_clock;

static std::thread late(std::function<void()> call) {
    return std::thread([call] {
        std::this_thread::sleep_for(30ms);
        call();
    });
}

static int sleep_for() {
    std::this_thread::sleep_for(30ms);
    return 0;
}

static int sleep_until() {
    std::this_thread::sleep_until(system_clock::now() + 30ms);
    return 0;
}

static int timed_mutex() {
    std::timed_mutex one;
    one.lock();
    bool got = true;
    std::thread([&] { got = one.try_lock_for(30ms); }).join();
    return got;
}

static int timed_mutex_until() {
    std::timed_mutex one;
    one.lock();
    bool got = true;
    std::thread([&] { got = one.try_lock_until(system_clock::now() + 30ms); }).join();
    return got;
}

static int shared_mutex() {
    std::shared_timed_mutex one;
    one.lock();
    bool got = true;
    std::thread([&] { got = one.try_lock_shared_for(30ms); }).join();
    return got;
}

static int shared_mutex_until() {
    std::shared_timed_mutex one;
    one.lock_shared();
    bool got = true;
    std::thread([&] { got = one.try_lock_until(steady_clock::now() + 30ms); }).join();
    return got;
}

static int condition_for() {
    std::mutex mutex;
    std::condition_variable one;
    std::unique_lock<std::mutex> lock(mutex);
    return one.wait_for(lock, 30ms) == std::cv_status::timeout;
}

static int condition_until() {
    std::mutex mutex;
    std::condition_variable_any one;
    std::unique_lock<std::mutex> lock(mutex);
    return one.wait_until(lock, system_clock::now() + 30ms) == std::cv_status::timeout;
}

static int condition_notified() {
    std::mutex mutex;
    std::condition_variable one;
    bool come = false;
    std::thread thread = late([&] {
        std::lock_guard<std::mutex> lock(mutex);
        come = true;
        one.notify_one();
    });
    std::unique_lock<std::mutex> lock(mutex);
    bool result = one.wait_for(lock, 4s, [&] { return come; });
    lock.unlock();
    thread.join();
    return result;
}

static int future_for() {
    std::promise<int> one;
    return one.get_future().wait_for(30ms) == std::future_status::timeout;
}

static int future_get() {
    std::promise<int> one;
    std::thread thread = late([&] { one.set_value(6); });
    int result = one.get_future().get();
    thread.join();
    return result;
}

static int async() {
    return std::async(std::launch::async, [] {
               std::this_thread::sleep_for(30ms);
               return 8;
           }).get();
}

static int call_once() {
    std::once_flag flag;
    auto once = [&] { std::call_once(flag, [] { std::this_thread::sleep_for(30ms); }); };
    std::thread one(once), other(once);
    one.join();
    other.join();
    return 0;
}

static const struct {
    const char *name;
    int (*call)();
} cases[] = {
    {"sleep_for", sleep_for},
    {"sleep_until", sleep_until},
    {"timed_mutex", timed_mutex},
    {"timed_mutex_until", timed_mutex_until},
    {"shared_mutex", shared_mutex},
    {"shared_mutex_until", shared_mutex_until},
    {"condition_for", condition_for},
    {"condition_until", condition_until},
    {"condition_notified", condition_notified},
    {"future_for", future_for},
    {"future_get", future_get},
    {"async", async},
    {"call_once", call_once},
};

int main() {
    for (const auto &one : cases) {
        if (fork() == 0) {
            auto begun = steady_clock::now();
            int result = one.call();
            auto micro = std::chrono::duration_cast<std::chrono::microseconds>(steady_clock::now() - begun).count();
            printf("%s 30 %ld %d\n", one.name, static_cast<long>(micro), result);
            fflush(stdout);
            _exit(0);
        }
    }
    while (wait(nullptr) > 0) {
    }
}
