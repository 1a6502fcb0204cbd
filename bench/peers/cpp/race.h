// What all races share: the reading of contours, the clocks, the area of a result, the most memory.
//
// usage: PROGRAM RULE FILE RUNS SECONDS
//
// RULE is union, intersect, difference or xor; FILE has a contour a line, `S x y x y ..` or `C x y x y ..`. The operation runs RUNS times,
// but no longer than SECONDS. Prints one line of words name=value: `cpu` and `wall`, the least milliseconds of a run; `prepare`, those
// of them in which the polygons of a shape were united, since the library takes valid polygons alone; contours, points, twice the
// area and the length of the result; the process's most memory before the runs and after them, in KiB.
//
// A program defines `struct Peer` with `void load(const Shapes &)`, `void clear()`, `double run(const std::string &rule)`, which
// returns `prepare`, and `void collect(Total &)`.
#pragma once
#include <algorithm>
#include <chrono>
#include <cmath>
#include <cstdint>
#include <cstdio>
#include <cstdlib>
#include <ctime>
#include <exception>
#include <fstream>
#include <sstream>
#include <stdexcept>
#include <string>
#include <vector>

struct Point { int32_t x, y; };
typedef std::vector<Point> Contour;
struct Shapes { std::vector<Contour> of[2]; };  // those of the subject, those of the clip

struct Corner { double x, y; };

// Adds up the rings of a result.
struct Total {
    size_t contours = 0, points = 0;
    long double twice_area = 0, length = 0;

    // Takes a ring by its direction: counterclockwise ones add to the area.
    void add_turned(const std::vector<Corner> &ring) { add(ring, signed_area(ring)); }
    // Takes a ring of a known side, whatever its direction is.
    void add_ring(const std::vector<Corner> &ring, bool is_hole) {
        long double area = std::fabs(signed_area(ring));
        add(ring, is_hole ? -area : area);
    }

private:
    void add(const std::vector<Corner> &ring, long double area) {
        bool is_closed = ring.size() > 1 && ring[0].x == ring.back().x && ring[0].y == ring.back().y;
        contours += 1, points += ring.size() - is_closed, twice_area += area;
        for (size_t i = 0; i < ring.size(); i++) {
            const Corner &a = ring[i], &b = ring[(i + 1) % ring.size()];
            length += std::hypot(b.x - a.x, b.y - a.y);
        }
    }
    static long double signed_area(const std::vector<Corner> &ring) {
        long double sum = 0;
        for (size_t i = 1; i + 1 < ring.size(); i++) {
            long double ax = (long double)ring[i].x - ring[0].x, ay = (long double)ring[i].y - ring[0].y;
            long double bx = (long double)ring[i + 1].x - ring[0].x, by = (long double)ring[i + 1].y - ring[0].y;
            sum += ax * by - ay * bx;
        }
        return sum;
    }
};

static inline Shapes read_shapes(const char *path) {
    std::ifstream file(path);
    if (!file) throw std::runtime_error("no such file");
    Shapes shapes;
    for (std::string line; std::getline(file, line);) {
        std::istringstream words(line);
        char shape;
        Contour contour;
        if (!(words >> shape)) continue;
        for (Point p; words >> p.x >> p.y;) contour.push_back(p);
        shapes.of[shape == 'C'].push_back(std::move(contour));
    }
    return shapes;
}

static inline double wall() {
    return std::chrono::duration<double, std::milli>(std::chrono::steady_clock::now().time_since_epoch()).count();
}

// The processor's milliseconds of this thread.
static inline double cpu() {
    timespec time;
    clock_gettime(CLOCK_THREAD_CPUTIME_ID, &time);
    return 1e3 * time.tv_sec + 1e-6 * time.tv_nsec;
}

static inline long most_memory() {
    std::ifstream file("/proc/self/status");
    long kb = 0;
    for (std::string line; std::getline(file, line);) if (std::sscanf(line.c_str(), "VmHWM: %ld", &kb) == 1) break;
    return kb;
}

template <class Peer> void measure(const std::string &rule, const char *path, int runs, double seconds) {
    Peer peer;
    peer.load(read_shapes(path));
    long before = most_memory();
    double least_cpu = INFINITY, least_wall = INFINITY, prepare = INFINITY, begin = wall();
    for (int run = 0; run < runs && (run == 0 || wall() - begin < 1e3 * seconds); run++) {
        peer.clear();
        double from_wall = wall(), from_cpu = cpu();
        double prepared = peer.run(rule);
        least_cpu = std::min(least_cpu, cpu() - from_cpu), least_wall = std::min(least_wall, wall() - from_wall);
        prepare = std::min(prepare, prepared);
    }
    long after = most_memory();
    Total total;
    peer.collect(total);
    std::printf("cpu=%.3f wall=%.3f prepare=%.3f contours=%zu points=%zu area2=%.0Lf length=%.0Lf", least_cpu, least_wall, prepare,
                total.contours, total.points, total.twice_area, total.length);
    std::printf(" before=%ld after=%ld\n", before, after);
}

template <class Peer> int race(int count, char **words) {
    if (count != 5) return std::fprintf(stderr, "usage: %s RULE FILE RUNS SECONDS\n", words[0]), 2;
    try {
        measure<Peer>(words[1], words[2], std::atoi(words[3]), std::atof(words[4]));
    } catch (const std::exception &fault) {
        return std::fprintf(stderr, "%s\n", fault.what()), 7;
    }
    std::fflush(stdout);
    std::_Exit(0);  // frees nothing
}
