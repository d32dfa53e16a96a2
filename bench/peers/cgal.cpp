// A job of bench/run peers by CGAL's Polygon_set_2 with exact constructions: cgal dissolve|common A B
// Its documents ask for simple rings, and without its assertions it answers anything where they aren't; so they are looked at first.
#include "layers.h"
#include <CGAL/Exact_predicates_exact_constructions_kernel.h>
#include <CGAL/Polygon_set_2.h>
#include <CGAL/version.h>
typedef CGAL::Exact_predicates_exact_constructions_kernel Kernel;
typedef CGAL::Polygon_2<Kernel> Polygon;
typedef CGAL::Polygon_with_holes_2<Kernel> Holed;
typedef CGAL::Polygon_set_2<Kernel> Set;

static Polygon ring_of(const Ring &ring, bool left) {
    Polygon found;
    for (auto &point : ring) found.push_back(Kernel::Point_2(point.first, point.second));
    if (!found.is_simple()) std::fprintf(stderr, "a ring isn't simple\n"), std::exit(1);
    if (found.is_counterclockwise_oriented() != left) found.reverse_orientation();
    return found;
}

static Set united(const std::vector<Feature> &layer) {
    std::vector<Holed> polygons;
    for (const Feature &feature : layer) {
        Holed polygon(ring_of(feature[0], true));
        for (size_t k = 1; k < feature.size(); k++) polygon.add_hole(ring_of(feature[k], false));
        polygons.push_back(polygon);
    }
    Set found;
    found.join(polygons.begin(), polygons.end());
    return found;
}

static void print(const Polygon &ring) {
    std::printf("(");
    for (size_t k = 0; k <= ring.size(); k++) {
        auto &point = ring[k % ring.size()];
        std::printf("%s%.17g %.17g", k ? ", " : "", CGAL::to_double(point.x()), CGAL::to_double(point.y()));
    }
    std::printf(")");
}

int main(int count, char **words) {
    if (count == 2) return std::puts("CGAL " CGAL_VERSION_STR), 0;
    std::vector<Feature> a = read_layer(words[2]), b = read_layer(words[3]);
    double start = processor();
    Set found = united(a);
    if (std::string(words[1]) == "common") found.intersection(united(b));
    std::vector<Holed> polygons;
    found.polygons_with_holes(std::back_inserter(polygons));
    for (Holed &polygon : polygons) { // exact numbers are worked out when they are asked for
        for (auto &point : polygon.outer_boundary()) CGAL::exact(point);
        for (auto &hole : polygon.holes()) for (auto &point : hole) CGAL::exact(point);
    }
    double seconds = processor() - start;
    for (Holed &polygon : polygons) {
        std::printf("POLYGON (");
        print(polygon.outer_boundary());
        for (auto &hole : polygon.holes()) std::printf(", "), print(hole);
        std::printf(")\n");
    }
    tell(seconds);
}
