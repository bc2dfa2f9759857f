// Threads of C++ on a lock, each parked on a condition variable of its own, and seats that are given back by themselves.

#include "seat.hpp"

#include <condition_variable>
#include <cstdio>
#include <cstdlib>
#include <mutex>
#include <thread>

namespace {

constexpr std::size_t threads = 4;
constexpr int rounds = 20000;

// Where a thread sleeps until its seat is named.
class Park {
public:
    void sleep()
    {
        std::unique_lock<std::mutex> lock(mutex);
        changed.wait(lock, [this] { return named; });
        named = false;
    }

    void name()
    {
        std::lock_guard<std::mutex> lock(mutex);
        named = true;
        changed.notify_one();
    }

private:
    std::mutex mutex;
    std::condition_variable changed;
    bool named = false;
};

[[noreturn]] void fail(const char *call, uint32_t answer)
{
    std::printf("%s answered %u\n", call, static_cast<unsigned>(answer));
    std::exit(1);
}

// A lock as std::lock_guard wants it: one thread's side of it.
class Lock {
public:
    Lock(parklot::Seat seat, std::vector<Park> &parks) : seat(std::move(seat)), number(this->seat.number()), parks(parks) {}

    void lock()
    {
        uint32_t answer;
        while ((answer = parklot_try_acquire(seat, 0)) == PARKLOT_LOST)
            continue;
        while (answer != PARKLOT_TAKEN) {
            answer = parklot_enter(seat, 0, false);
            if (answer == PARKLOT_ASLEEP)
                answer = slept();
            else if (answer == PARKLOT_BUSY)
                std::this_thread::yield();
            else if (answer != PARKLOT_TAKEN)
                fail("parklot_enter", answer);
        }
    }

    void unlock()
    {
        uint32_t woken;
        uint32_t answer = parklot_post(seat, 0);
        if (answer == PARKLOT_DONE)
            return;
        if (answer != PARKLOT_OWES)
            fail("parklot_post", answer);
        while ((answer = parklot_wake(seat, false, &woken)) == PARKLOT_BUSY)
            std::this_thread::yield();
        if (answer == PARKLOT_ONE)
            parks[woken].name();
        else if (answer != PARKLOT_NOBODY)
            fail("parklot_wake", answer);
    }

private:
    uint32_t slept()
    {
        parks[number].sleep();
        uint32_t answer = parklot_poll(seat);
        if (answer != PARKLOT_WOKEN)
            fail("parklot_poll", answer);
        answer = parklot_retry(seat);
        if (answer != PARKLOT_TAKEN && answer != PARKLOT_ZERO)
            fail("parklot_retry", answer);
        return answer;
    }

    parklot::Seat seat;
    uint32_t number;
    std::vector<Park> &parks;
};

void add(Lock lock, unsigned long &sum)
{
    for (int round = 0; round < rounds; round++) {
        std::lock_guard<Lock> held(lock);
        sum++;
        if (round % 32 == 0)
            std::this_thread::yield();
    }
}

} // namespace

int main()
{
    uint32_t answer;
    auto none = parklot::seats({}, 1, answer);
    std::printf("no counters: %s, %u\n", none ? "seats" : "no seats", static_cast<unsigned>(answer));

    auto seats = parklot::seats({1}, threads, answer);
    if (!seats)
        fail("parklot_new", answer);
    unsigned long sum = 0;
    {
        std::vector<Park> parks(threads);
        std::vector<std::thread> running;
        for (auto &seat : *seats)
            running.emplace_back([&parks, &sum, lock = Lock(std::move(seat), parks)]() mutable { add(std::move(lock), sum); });
        for (auto &thread : running)
            thread.join();
    }
    std::printf("sum %lu of %lu\n", sum, static_cast<unsigned long>(threads) * rounds);

    parklot::Seat &moved = seats->front();
    std::printf("a seat that was moved: %u\n", static_cast<unsigned>(parklot_try_acquire(moved, 0)));
    auto others = parklot::seats({7}, 1, answer);
    moved = std::move(others->front());
    std::printf("another in its place: %u\n", static_cast<unsigned>(parklot_try_acquire(moved, 0)));
    return 0;
}
