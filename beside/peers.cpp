// Times what C++ programs use in place of a table: a line for each measurement, with the peer, the
// name of the workload that it stands beside, and the nanoseconds of one operation, the least of
// several rounds. The argument is the number of rounds. WITH_TBB and WITH_BOOST say which libraries
// there are.

#include <pthread.h>

#include <algorithm>
#include <barrier>
#include <chrono>
#include <cstdint>
#include <cstdio>
#include <cstdlib>
#include <functional>
#include <memory>
#include <thread>
#include <vector>

#ifdef WITH_TBB
#include <tbb/enumerable_thread_specific.h>
#endif
#ifdef WITH_BOOST
#include <boost/thread/tss.hpp>
#include <boost/version.hpp>
#endif

using std::uint64_t;
using Clock = std::chrono::steady_clock;

// How many operations a round made, and in how many nanoseconds.
struct Round {
    uint64_t operations;
    double time;
};

static double since(Clock::time_point start) {
    return std::chrono::duration<double, std::nano>(Clock::now() - start).count();
}

static void expect(bool holds, const char *what) {
    if (!holds) {
        std::fprintf(stderr, "peers: %s\n", what);
        std::exit(1);
    }
}

static uint64_t sum_below(uint64_t end) {
    return end * (end - 1) / 2;
}

// What stands before it in memory is written before what stands after it: no loop is merged.
static void keep_apart() {
    asm volatile("" ::: "memory");
}

// Threads that stay, and do the same at once as often as they are asked. Where a library knows a
// thread by its address, no two of them are one.
class Threads {
  public:
    explicit Threads(unsigned count) : begin(count + 1), end(count + 1), handles(count) {
        pthread_attr_t attributes;
        pthread_attr_init(&attributes);
        pthread_attr_setstacksize(&attributes, 1 << 18);
        for (unsigned number = 0; number < count; ++number) {
            auto *start = new Start{this, number};
            expect(pthread_create(&handles[number], &attributes, run, start) == 0, "no thread");
        }
        pthread_attr_destroy(&attributes);
    }

    ~Threads() {
        work = nullptr;
        begin.arrive_and_wait();
        for (pthread_t handle : handles) pthread_join(handle, nullptr);
    }

    void each(std::function<void(uint64_t)> asked) {
        work = std::move(asked);
        begin.arrive_and_wait();
        end.arrive_and_wait();
    }

  private:
    struct Start {
        Threads *threads;
        uint64_t number;
    };

    static void *run(void *given) {
        std::unique_ptr<Start> start(static_cast<Start *>(given));
        for (;;) {
            start->threads->begin.arrive_and_wait();
            if (!start->threads->work) return nullptr;
            start->threads->work(start->number);
            start->threads->end.arrive_and_wait();
        }
    }

    std::barrier<> begin, end;
    std::function<void(uint64_t)> work;
    std::vector<pthread_t> handles;
};

// Each peer has `first`, which makes the thread's value, `find`, which finds it, and `leave`, which
// drops it where the peer's end doesn't.

#ifdef WITH_TBB
struct Tbb {
    static constexpr const char *name = "oneTBB";
    static constexpr unsigned most = 20000;
    tbb::enumerable_thread_specific<uint64_t> values;

    void first(uint64_t number) {
        values.local() = number;
    }
    uint64_t *find() {
        return &values.local();
    }
    void leave() {}
};
#endif

#ifdef WITH_BOOST
struct Boost {
    static constexpr const char *name = "Boost";
    static constexpr unsigned most = 20000;
    boost::thread_specific_ptr<uint64_t> value;

    void first(uint64_t number) {
        value.reset(new uint64_t(number));
    }
    uint64_t *find() {
        return value.get();
    }
    void leave() {
        value.reset();
    }
};
#endif

struct Key {
    static constexpr const char *name = "pthread key";
    // A process has 1,024 keys, and its libraries use some.
    static constexpr unsigned most = 1000;
    pthread_key_t key;

    Key() {
        expect(pthread_key_create(&key, drop) == 0, "no key");
    }
    ~Key() {
        leave();
        pthread_key_delete(key);
    }
    void first(uint64_t number) {
        pthread_setspecific(key, new uint64_t(number));
    }
    uint64_t *find() {
        return static_cast<uint64_t *>(pthread_getspecific(key));
    }
    void leave() {
        if (uint64_t *value = find()) {
            drop(value);
            pthread_setspecific(key, nullptr);
        }
    }
    static void drop(void *value) {
        delete static_cast<uint64_t *>(value);
    }
};

static thread_local uint64_t declared[2];

// A variable of each thread. There is no object to make or to drop.
struct Variable {
    static constexpr const char *name = "C++ thread_local";

    void first(uint64_t number) {
        declared[0] = number;
    }
    uint64_t *find() {
        return &declared[0];
    }
};

constexpr uint64_t HITS = 10'000'000;

// Which of two is asked goes by the number's bits that are in the mask. Of it no compiler knows that it
// is 1.
static volatile uint64_t hit_mask = 1;

// Finds the values of two objects by turns and adds to them.
template <class Peer> static Round hit() {
    Peer peers[2];
    for (Peer &peer : peers) peer.first(0);
    const uint64_t mask = hit_mask;
    auto start = Clock::now();
    for (uint64_t number = 0; number < HITS; ++number) {
        *peers[(number & mask) != 0].find() += 1;
        keep_apart();
    }
    double time = since(start);
    expect(*peers[0].find() + *peers[1].find() == HITS, "hits were lost");
    return {HITS, time};
}

static Round hit_declared() {
    const uint64_t mask = hit_mask;
    auto start = Clock::now();
    for (uint64_t number = 0; number < HITS; ++number) {
        declared[(number & mask) != 0] += 1;
        keep_apart();
    }
    double time = since(start);
    expect((declared[0] + declared[1]) % HITS == 0, "hits were lost");
    return {HITS, time};
}

// An object is made, its first value too, and it is dropped.
template <class Peer> static Round new_first_drop() {
    constexpr uint64_t TIMES = 200'000;
    auto start = Clock::now();
    for (uint64_t number = 0; number < TIMES; ++number) {
        Peer peer;
        peer.first(number);
        keep_apart();
    }
    return {TIMES, since(start)};
}

// Adds a number to a count. It isn't inlined, so that each sum is stored.
[[gnu::noinline]] static void add_number(uint64_t &count, uint64_t number) {
    uint64_t sum;
    bool over = __builtin_add_overflow(count, number, &sum);
    count = over ? UINT64_MAX : sum;
}

// Adds each fourth number below `end` to a count, from the thread's own on.
static void add_to(uint64_t &count, uint64_t thread, uint64_t end) {
    for (uint64_t turn = 0; turn < end / 4; ++turn) add_number(count, turn * 4 + thread);
}

// Four threads add numbers up, each in its own value. Without a walk the sums are handed over.
template <class Peer> static Round tally() {
    constexpr uint64_t NUMBERS = 4'000'000;
    Peer peer;
    uint64_t sums[4] = {};
    std::vector<std::thread> threads;
    auto start = Clock::now();
    for (uint64_t thread = 0; thread < 4; ++thread) {
        threads.emplace_back([&peer, &sums, thread] {
            peer.first(0);
            uint64_t &count = *peer.find();
            add_to(count, thread, NUMBERS);
            sums[thread] = count;
        });
    }
    for (std::thread &thread : threads) thread.join();
    double time = since(start);
    expect(sums[0] + sums[1] + sums[2] + sums[3] == sum_below(NUMBERS), "numbers were lost");
    return {NUMBERS, time};
}

// Four threads make their first values in new objects, each thread in each object.
template <class Peer> static Round storm(Threads &four) {
    auto peers = std::make_unique<Peer[]>(Peer::most);
    auto start = Clock::now();
    four.each([&](uint64_t) {
        for (unsigned at = 0; at < Peer::most; ++at) peers[at].first(at);
    });
    double time = since(start);
    four.each([&](uint64_t) {
        for (unsigned at = 0; at < Peer::most; ++at) {
            expect(*peers[at].find() == at, "a first value was lost");
            peers[at].leave();
        }
    });
    return {Peer::most, time};
}

static void report(const char *peer, const char *line, int rounds, const std::function<Round()> &round) {
    double least = 1e18;
    for (int at = 0; at < rounds; ++at) {
        Round made = round();
        least = std::min(least, made.time / double(made.operations));
    }
    std::printf("%s|%s|%.3f\n", peer, line, least);
    std::fflush(stdout);
}

// What every library with objects can do.
template <class Peer> static void report_objects(int rounds) {
    report(Peer::name, "get_hit", rounds, hit<Peer>);
    report(Peer::name, "new_first_drop", rounds, new_first_drop<Peer>);
    report(Peer::name, "tally_4_threads", rounds, tally<Peer>);
    Threads four(4);
    report(Peer::name, "first_4_threads", rounds, [&] { return storm<Peer>(four); });
}

#ifdef WITH_TBB
// Walks over the values of as many threads, often enough. An operation is one value.
static Round walk(Threads &threads, uint64_t values, uint64_t walks) {
    Tbb peer;
    threads.each([&](uint64_t number) { peer.first(number); });
    uint64_t sum = 0;
    auto start = Clock::now();
    for (uint64_t at = 0; at < walks; ++at) {
        for (uint64_t value : peer.values) sum += value;
        keep_apart();
    }
    double time = since(start);
    expect(sum == sum_below(values) * walks, "a walk passed a value by");
    return {values * walks, time};
}

// Clears objects with values of as many threads, several times.
static Round clear(Threads &threads, unsigned objects, unsigned times) {
    std::vector<Tbb> peers(objects);
    double time = 0;
    for (unsigned at = 0; at < times; ++at) {
        threads.each([&](uint64_t number) {
            for (Tbb &peer : peers) peer.first(number);
        });
        auto start = Clock::now();
        for (Tbb &peer : peers) peer.values.clear();
        time += since(start);
    }
    return {uint64_t(objects) * times, time};
}

static void report_walks(int rounds) {
    {
        Threads eight(8);
        report(Tbb::name, "iter_8", rounds, [&] { return walk(eight, 8, 400'000); });
        report(Tbb::name, "clear_8", rounds, [&] { return clear(eight, 64, 200); });
    }
    Threads many(1023);
    report(Tbb::name, "iter_1023", rounds, [&] { return walk(many, 1023, 5'000); });
    report(Tbb::name, "clear_1023", rounds, [&] { return clear(many, 100, 2); });
}
#endif

int main(int count, char **words) {
    int rounds = std::max(1, count > 1 ? std::atoi(words[1]) : 1);
    std::printf("g++|version|%d.%d\n", __GNUC__, __GNUC_MINOR__);
#ifdef WITH_TBB
    std::printf("%s|version|%d.%d\n", Tbb::name, TBB_VERSION_MAJOR, TBB_VERSION_MINOR);
    report_objects<Tbb>(rounds);
    report_walks(rounds);
#endif
#ifdef WITH_BOOST
    std::printf("%s|version|%d.%d\n", Boost::name, BOOST_VERSION / 100000, BOOST_VERSION / 100 % 1000);
    report_objects<Boost>(rounds);
#endif
    report_objects<Key>(rounds);
    report(Variable::name, "get_hit", rounds, hit_declared);
    report(Variable::name, "tally_4_threads", rounds, tally<Variable>);
}
