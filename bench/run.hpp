// One run in a process of its own: its time, and how much its memory grew at most.
#pragma once

#include <malloc.h>
#include <sys/resource.h>
#include <sys/wait.h>
#include <unistd.h>

#include <algorithm>
#include <chrono>
#include <cstdint>
#include <cstdio>
#include <cstdlib>
#include <functional>
#include <vector>

struct Run {
    double seconds;
    double megabytes;
    std::uint64_t answer;
};

inline long resident_kilobytes() {
    long pages = 0, resident = 0;
    std::FILE *file = std::fopen("/proc/self/statm", "r");
    if (!file || std::fscanf(file, "%ld %ld", &pages, &resident) != 2) std::exit(1);
    std::fclose(file);
    return resident * (sysconf(_SC_PAGESIZE) / 1024);
}

inline Run timed(const std::function<std::uint64_t()> &work) {
    const long before = resident_kilobytes();
    const auto start = std::chrono::steady_clock::now();
    const auto answer = work();
    const auto end = std::chrono::steady_clock::now();
    rusage usage{};
    getrusage(RUSAGE_SELF, &usage);
    return {std::chrono::duration<double>(end - start).count(), (usage.ru_maxrss - before) * 1024 / 1e6, answer};
}

inline Run run_apart(const std::function<std::uint64_t()> &work) {
    int ends[2];
    malloc_trim(0);
    if (pipe(ends) != 0) std::exit(1);
    const auto child = fork();
    if (child == 0) {
        const Run run = timed(work);
        _exit(write(ends[1], &run, sizeof run) == sizeof run ? 0 : 1);
    }
    close(ends[1]);
    Run run{};
    const bool whole = read(ends[0], &run, sizeof run) == sizeof run;
    close(ends[0]);
    int status = 0;
    if (child < 0 || waitpid(child, &status, 0) != child || status != 0 || !whole) {
        std::printf("a run broke off\n");
        std::exit(1);
    }
    return run;
}

struct Work {
    const char *name;
    std::uint64_t expected;
    std::function<std::uint64_t()> run;
};

// The best time and the largest memory of each work in three rounds over all of them, so that a
// busy moment doesn't hit one work alone. Each must answer as expected.
inline std::vector<Run> best_apart(const std::vector<Work> &works) {
    std::vector<Run> best(works.size(), Run{1e9, 0, 0});
    for (int round = 0; round < 3; ++round) {
        for (std::size_t i = 0; i < works.size(); ++i) {
            const Run run = run_apart(works[i].run);
            if (run.answer != works[i].expected) {
                std::printf("%s: the answers differ: %llu and %llu\n", works[i].name,
                            static_cast<unsigned long long>(run.answer),
                            static_cast<unsigned long long>(works[i].expected));
                std::exit(1);
            }
            best[i].seconds = std::min(best[i].seconds, run.seconds);
            best[i].megabytes = std::max(best[i].megabytes, run.megabytes);
        }
    }
    return best;
}

inline void table_head() { std::printf("| Tile | What | Seconds | Peak, MB |\n|---|---|---|---|\n"); }

inline void line_of(const char *tile, const char *work, double seconds, double megabytes) {
    std::printf("| %s | %s | %.3f | %.0f |\n", tile, work, std::max(seconds, 0.0), megabytes);
    std::fflush(stdout);
}
