// What bench/run capabilities asks Clipper 6 for: clipper_asked faces A B | common A B | decimals | line A
#include "layers.h"
#include <polyclipping/clipper.hpp>
using namespace ClipperLib;

static Path ring_of(const char *path) {
    Path found;
    std::vector<Feature> layer = read_layer(path);
    for (auto &point : layer[0][0]) found.push_back(IntPoint(point.first, point.second));
    return found;
}

// All that a part of an answer has: what it is, its points, and how many parts are in it.
static void print(const PolyNode &node) {
    std::cout << (node.IsOpen() ? "line" : node.IsHole() ? "hole" : "polygon");
    for (auto &point : node.Contour) std::cout << " " << point.X << "," << point.Y;
    std::cout << "; " << node.ChildCount() << " in it\n";
}

int main(int count, char **words) {
    if (count == 2 && std::string(words[1]) == "--version") return std::puts("Clipper " CLIPPER_VERSION), 0;
    std::string asked = words[1];
    if (asked == "decimals") return std::cout << "IntPoint(0.5, 0.5) has " << IntPoint(0.5, 0.5).X << "," << IntPoint(0.5, 0.5).Y << "\n", 0;
    Clipper clipper;
    if (asked == "line") clipper.AddPath({{1, 1}, {7, 1}}, ptSubject, false), clipper.AddPath(ring_of(words[2]), ptClip, true);
    else clipper.AddPath(ring_of(words[2]), ptSubject, true), clipper.AddPath(ring_of(words[3]), ptClip, true);
    PolyTree found;
    clipper.Execute(asked == "faces" ? ctUnion : ctIntersection, found, pftNonZero, pftNonZero);
    for (PolyNode *node = found.GetFirst(); node; node = node->GetNext()) print(*node);
}
