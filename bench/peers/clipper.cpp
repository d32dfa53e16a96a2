// A job of bench/run peers by Clipper 6 (Debian's libpolyclipping-dev): clipper dissolve|common A B
#include "layers.h"
#include <polyclipping/clipper.hpp>
using namespace ClipperLib;

static void add(Clipper &clipper, const std::vector<Feature> &layer, PolyType type) {
    for (const Feature &feature : layer)
        for (size_t k = 0; k < feature.size(); k++) {
            Path path;
            for (auto &point : feature[k]) path.push_back(IntPoint(point.first, point.second));
            if (Orientation(path) != (k == 0)) ReversePath(path); // shells turn left, holes right
            clipper.AddPath(path, type, true);
        }
}

static void print(const Path &path) {
    std::printf("(");
    for (size_t k = 0; k <= path.size(); k++) std::printf("%s%lld %lld", k ? ", " : "", (long long)path[k % path.size()].X, (long long)path[k % path.size()].Y);
    std::printf(")");
}

int main(int count, char **words) {
    if (count == 2) return std::puts("Clipper " CLIPPER_VERSION), 0;
    bool both = std::string(words[1]) == "common";
    std::vector<Feature> a = read_layer(words[2]), b = read_layer(words[3]);
    double start = processor();
    Clipper clipper;
    add(clipper, a, ptSubject);
    if (both) add(clipper, b, ptClip);
    PolyTree tree;
    if (!clipper.Execute(both ? ctIntersection : ctUnion, tree, pftNonZero, pftNonZero)) return std::fprintf(stderr, "Execute answered false\n"), 1;
    double seconds = processor() - start;
    for (PolyNode *node = tree.GetFirst(); node; node = node->GetNext()) {
        if (node->IsHole()) continue;
        std::printf("POLYGON (");
        print(node->Contour);
        for (PolyNode *hole : node->Childs) std::printf(", "), print(hole->Contour);
        std::printf(")\n");
    }
    tell(seconds);
}
