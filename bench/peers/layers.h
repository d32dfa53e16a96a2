// Layers as bench/run peers writes them, a polygon a line, and answers as it reads them.
#pragma once
#include <cstdio>
#include <cstdlib>
#include <ctime>
#include <fstream>
#include <iostream>
#include <string>
#include <utility>
#include <vector>

typedef std::vector<std::pair<long, long>> Ring;
typedef std::vector<Ring> Feature;

inline std::vector<Feature> read_layer(const char *path) {
    std::vector<Feature> found;
    std::ifstream file(path);
    for (std::string line; std::getline(file, line);) {
        Feature feature;
        const char *at = line.c_str();
        while (*at && *at != '(') at++;
        for (at += *at == '('; *at; at++) {
            if (*at != '(') continue;
            Ring ring;
            do {
                char *end;
                long x = std::strtol(at + 1, &end, 10), y = std::strtol(end, &end, 10);
                ring.push_back({x, y});
                at = end;
            } while (*at == ',');
            ring.pop_back(); // the first point again
            feature.push_back(ring);
        }
        found.push_back(feature);
    }
    return found;
}

inline double processor() {
    timespec told;
    clock_gettime(CLOCK_PROCESS_CPUTIME_ID, &told);
    return told.tv_sec + told.tv_nsec * 1e-9;
}

inline void tell(double seconds) { std::fprintf(stderr, "processor %.6f\n", seconds); }
