// Small calls of bench/run bridge: small A B [LIBRARY] intersects the polygons of two files, line by line, by Clipper 6, by GEOS
// (where libgeos-dev is there) and by overlay's library for C, from texts and from columns to the same, and prints a line
// `name, microseconds a call, area, how many failed`.
#include "layers.h"
#include <polyclipping/clipper.hpp>
#include <cmath>
#include <cstdlib>
#include <cstring>
#include <dlfcn.h>
#include "../../include/overlay.h"
#if __has_include(<geos_c.h>)
#include <geos_c.h>
#define HAS_GEOS 1
#endif

typedef std::vector<Feature> Layer;

static void told(const char *name, double seconds, size_t calls, double area, int failed) {
    std::printf("%s\t%.2f\t%.1f\t%d\n", name, 1e6 * seconds / calls, area, failed);
}

static void by_clipper(const Layer &a, const Layer &b) {
    double area = 0, start = processor();
    int failed = 0;
    for (size_t k = 0; k < a.size(); k++) {
        ClipperLib::Clipper clipper;
        for (const Layer *layer : {&a, &b}) {
            ClipperLib::Path path;
            for (auto &point : (*layer)[k][0]) path.push_back(ClipperLib::IntPoint(point.first, point.second));
            clipper.AddPath(path, layer == &a ? ClipperLib::ptSubject : ClipperLib::ptClip, true);
        }
        ClipperLib::Paths found;
        failed += !clipper.Execute(ClipperLib::ctIntersection, found, ClipperLib::pftEvenOdd, ClipperLib::pftEvenOdd);
        for (auto &path : found) area += ClipperLib::Area(path);
    }
    told("Clipper 6", processor() - start, a.size(), area, failed);
}

#ifdef HAS_GEOS
static void silent(const char *, ...) {}

static GEOSGeometry *polygon(GEOSContextHandle_t geos, const Feature &feature) {
    size_t count = feature[0].size();
    GEOSCoordSequence *points = GEOSCoordSeq_create_r(geos, count + 1, 2);
    for (size_t k = 0; k <= count; k++) GEOSCoordSeq_setXY_r(geos, points, k, feature[0][k % count].first, feature[0][k % count].second);
    return GEOSGeom_createPolygon_r(geos, GEOSGeom_createLinearRing_r(geos, points), nullptr, 0);
}

static void by_geos(const Layer &a, const Layer &b, double grid, const char *name) {
    GEOSContextHandle_t geos = GEOS_init_r();
    GEOSContext_setNoticeHandler_r(geos, silent);
    GEOSContext_setErrorHandler_r(geos, silent);
    double sum = 0, start = processor();
    int failed = 0;
    for (size_t k = 0; k < a.size(); k++) {
        GEOSGeometry *first = polygon(geos, a[k]), *second = polygon(geos, b[k]);
        GEOSGeometry *found = grid > 0 ? GEOSIntersectionPrec_r(geos, first, second, grid) : GEOSIntersection_r(geos, first, second);
        double area = 0;
        if (found) GEOSArea_r(geos, found, &area);
        failed += !found;
        sum += area;
        for (GEOSGeometry *geometry : {first, second, found})
            if (geometry) GEOSGeom_destroy_r(geos, geometry);
    }
    told(name, processor() - start, a.size(), sum, failed);
    GEOS_finish_r(geos);
}
#endif

static std::vector<std::string> lines(const char *path) {
    std::vector<std::string> found;
    std::ifstream file(path);
    for (std::string line; std::getline(file, line);) found.push_back(line);
    return found;
}

// The area of a MULTIPOLYGON text, whose shells turn left and holes right.
static double area_of(const char *text, size_t length) {
    double area = 0, first[2] = {0, 0}, last[2] = {0, 0};
    bool begins = true;
    for (const char *at = text, *end = text + length; at < end;) {
        if (*at == '(' || *at == ')') begins = true;
        if (*at != '-' && (*at < '0' || *at > '9')) { at++; continue; }
        char *rest;
        double x = std::strtod(at, &rest), y = std::strtod(rest, &rest);
        if (begins) first[0] = x, first[1] = y;
        else area += (last[0] - first[0]) * (y - first[1]) - (x - first[0]) * (last[1] - first[1]);
        last[0] = x, last[1] = y, begins = false, at = rest;
    }
    return area / 2;
}

// The polygons of a layer as columns.
struct Columns {
    std::vector<int32_t> coordinates;
    std::vector<uint32_t> rings{0}, places{0};

    explicit Columns(const Layer &layer) {
        for (auto &feature : layer) {
            for (size_t k = 0; k <= feature[0].size(); k++) {
                auto &point = feature[0][k % feature[0].size()];
                coordinates.insert(coordinates.end(), {(int32_t)point.first, (int32_t)point.second});
            }
            rings.push_back(coordinates.size() / 2);
            places.push_back(places.size());
        }
    }

    overlay_columns all() const {
        return {coordinates.data(), coordinates.size(), rings.data(), rings.size(), places.data(), places.size(), places.data(), places.size()};
    }
};

// The area of rings, of which shells turn left and holes right.
static double area_of(const int32_t *points, const uint32_t *rings, size_t count) {
    double area = 0;
    for (size_t ring = 0; ring + 1 < count; ring++) {
        double x = points[2 * rings[ring]], y = points[2 * rings[ring] + 1];
        for (size_t k = rings[ring] + 1; k + 1 < rings[ring + 1]; k++)
            area += (points[2 * k] - x) * (points[2 * k + 3] - y) - (points[2 * k + 2] - x) * (points[2 * k + 1] - y);
    }
    return area / 2;
}

static void by_columns(void *opened, const Layer &a, const Layer &b) {
    auto fill = (decltype(&overlay_columns_fill))dlsym(opened, "overlay_columns_fill");
    auto fill_pairs = (decltype(&overlay_pairs_fill))dlsym(opened, "overlay_pairs_fill");
    Columns first(a), second(b);
    std::vector<int32_t> points(8 * (first.coordinates.size() + second.coordinates.size()));
    std::vector<uint32_t> rings(points.size()), polygons(points.size()), features(a.size() + 1);
    overlay_columns_answer answer;
    double area = 0, start = processor();
    overlay_columns all[2] = {first.all(), second.all()};
    fill_pairs(OVERLAY_INTERSECTION, UINT32_MAX, &all[0], &all[1], points.data(), points.size(), rings.data(), rings.size(), polygons.data(),
               polygons.size(), features.data(), features.size(), &answer);
    double seconds = processor() - start;
    bool is_answered = answer.status == OVERLAY_ANSWERED;
    told("overlay, by C, columns to columns, in one call", seconds, a.size(), is_answered ? area_of(points.data(), rings.data(), answer.rings) : 0,
         is_answered ? 0 : (int)a.size());
    int failed = 0;
    seconds = 0;
    for (size_t k = 0; k < a.size(); k++) {
        Columns one({a[k]}), other({b[k]});
        overlay_columns pair[2] = {one.all(), other.all()};
        start = processor();
        fill(OVERLAY_INTERSECTION, 262144, 1048576, &pair[0], &pair[1], points.data(), points.size(), rings.data(), rings.size(), polygons.data(),
             polygons.size(), &answer);
        seconds += processor() - start;
        failed += answer.status != OVERLAY_ANSWERED;
        if (answer.status == OVERLAY_ANSWERED) area += area_of(points.data(), rings.data(), answer.rings);
    }
    told("overlay, by C, columns to columns", seconds, a.size(), area, failed);
}

static void by_text(void *opened, const char *first, const char *second) {
    auto fill = (decltype(&overlay_fill))dlsym(opened, "overlay_fill");
    std::vector<std::string> a = lines(first), b = lines(second);
    std::vector<char> room(1 << 16);
    double area = 0, seconds = 0;
    int failed = 0;
    for (size_t k = 0; k < a.size(); k++) {
        overlay_answer answer;
        double start = processor();
        fill(OVERLAY_INTERSECTION, 262144, (const uint8_t *)a[k].data(), a[k].size(), (const uint8_t *)b[k].data(), b[k].size(),
             (uint8_t *)room.data(), room.size() - 1, &answer);
        seconds += processor() - start;
        failed += answer.status != OVERLAY_ANSWERED;
        room[answer.length] = 0;
        if (answer.status == OVERLAY_ANSWERED) area += area_of(room.data(), answer.length);
    }
    told("overlay, by C, text to text", seconds, a.size(), area, failed);
}

int main(int count, char **words) {
    if (count < 3) return 2;
    Layer a = read_layer(words[1]), b = read_layer(words[2]);
    by_clipper(a, b);
#ifdef HAS_GEOS
    by_geos(a, b, 0, "GEOS, by C");
    by_geos(a, b, 1, "GEOS, grid 1, by C");
#endif
    if (count < 4) return 0;
    void *opened = dlopen(words[3], RTLD_NOW);
    if (!opened) return std::fprintf(stderr, "%s\n", dlerror()), 1;
    by_columns(opened, a, b);
    by_text(opened, words[1], words[2]);
    return 0;
}
