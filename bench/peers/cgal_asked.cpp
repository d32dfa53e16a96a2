// What bench/run capabilities asks CGAL for: cgal_asked faces A B [C] | read A | common A B | line A LINE | grid A B
#include <CGAL/Arr_default_overlay_traits.h>
#include <CGAL/Arr_extended_dcel.h>
#include <CGAL/Arr_overlay_2.h>
#include <CGAL/Arr_segment_traits_2.h>
#include <CGAL/Arrangement_2.h>
#include <CGAL/Exact_predicates_exact_constructions_kernel.h>
#include <CGAL/IO/WKT.h>
#include <CGAL/Polygon_set_2.h>
#include <CGAL/Snap_rounding_2.h>
#include <CGAL/Snap_rounding_traits_2.h>
#include <CGAL/version.h>
#include <fstream>
#include <iostream>
typedef CGAL::Exact_predicates_exact_constructions_kernel Kernel;
typedef CGAL::Polygon_with_holes_2<Kernel> Polygon;
typedef CGAL::Arr_segment_traits_2<Kernel> Segments;
typedef CGAL::Arrangement_2<Segments, CGAL::Arr_face_extended_dcel<Segments, std::string>> Faces;

static Polygon read(const char *path) {
    std::ifstream file(path);
    Polygon found;
    if (!CGAL::IO::read_polygon_WKT(file, found) || found.outer_boundary().is_empty()) std::cerr << "no polygon\n", std::exit(1);
    return found;
}

static Faces faces_of(const char *path) {
    Faces found;
    Polygon polygon = read(path);
    CGAL::insert(found, polygon.outer_boundary().edges_begin(), polygon.outer_boundary().edges_end());
    for (auto face : found.face_handles()) face->set_data(face->is_unbounded() ? "" : std::string(1, path[0]));
    return found;
}

static void print(const Polygon &polygon) { CGAL::IO::write_polygon_WKT(std::cout, polygon); }

int main(int count, char **words) {
    if (count == 2) return std::puts("CGAL " CGAL_VERSION_STR), 0;
    std::string asked = words[1];
    if (asked == "read") print(read(words[2]));
    if (asked == "faces") {
        Faces found = faces_of(words[2]);
        for (int k = 3; k < count; k++) {
            Faces other = faces_of(words[k]), both;
            CGAL::Arr_face_overlay_traits<Faces, Faces, Faces, std::plus<std::string>> join;
            CGAL::overlay(found, other, both, join);
            found = both;
        }
        for (auto face : found.face_handles())
            if (!face->is_unbounded()) std::cout << "a face of " << face->data() << "\n";
    }
    if (asked == "common") {
        CGAL::Polygon_set_2<Kernel> found(read(words[2]));
        found.intersection(read(words[3]));
        std::vector<Polygon> polygons;
        found.polygons_with_holes(std::back_inserter(polygons));
        for (auto &polygon : polygons) print(polygon);
    }
    if (asked == "line") { // its edges that lie in the polygon's face
        Faces found = faces_of(words[2]);
        std::ifstream file(words[3]);
        std::vector<Kernel::Point_2> line;
        CGAL::IO::read_linestring_WKT(file, line);
        for (size_t k = 1; k < line.size(); k++) CGAL::insert(found, Kernel::Segment_2(line[k - 1], line[k]));
        for (auto edge : found.edge_handles())
            if (edge->face() == edge->twin()->face() && !edge->face()->is_unbounded()) std::cout << "in the polygon: " << edge->curve() << "\n";
    }
    if (asked == "grid") {
        std::vector<Kernel::Segment_2> edges;
        for (auto path : {words[2], words[3]}) {
            Polygon polygon = read(path);
            edges.insert(edges.end(), polygon.outer_boundary().edges_begin(), polygon.outer_boundary().edges_end());
        }
        std::vector<std::vector<Kernel::Point_2>> found;
        CGAL::snap_rounding_2<CGAL::Snap_rounding_traits_2<Kernel>>(edges.begin(), edges.end(), found, 1, true, true);
        for (auto &line : found) {
            std::cout << "LINESTRING (";
            for (auto &point : line) std::cout << (&point == &line[0] ? "" : ", ") << point;
            std::cout << ")\n";
        }
    }
}
