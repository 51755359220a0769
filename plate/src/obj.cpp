// Reads an OBJ and its MTL by tinyobjloader and hands lists to src/obj.rs.
//
// The loader keeps no line of a face, but it keeps the smoothing group: so it is given a text in which every face stands in a group of its own, whose
// number is the face's, and a table says on which line each face stands. Its messages come from the text as it is, so their lines are the file's.
#define TINYOBJLOADER_IMPLEMENTATION
#define TINYOBJLOADER_USE_DOUBLE
#include <tiny_obj_loader.h>

#include <cstdint>
#include <exception>
#include <fstream>
#include <new>
#include <sstream>

namespace {

struct Mtl {
    std::string name, bytes;
};

// Reads material files beside the drawing and keeps what it read, so that exactly that can be hashed.
struct Reader : tinyobj::MaterialReader {
    std::string folder;
    std::vector<Mtl> read;
    std::vector<std::string> missing;
    bool operator()(const std::string &id, std::vector<tinyobj::material_t> *materials, std::map<std::string, int> *map, std::string *warn,
                    std::string *err) override {
        std::ifstream file(folder + "/" + id, std::ios::binary);
        std::stringstream all;
        if (!file || !(all << file.rdbuf())) {
            missing.push_back(id);
            return false;
        }
        read.push_back({id, all.str()});
        LoadMtl(map, materials, &all, warn, err);
        return true;
    }
};

struct Drawing {
    std::vector<double> points;
    std::vector<int64_t> triangles;  // v0 v1 v2 material face
    std::vector<int64_t> corners;    // face and point of every corner of every face, also points that are not there
    std::vector<uint64_t> lines;     // the line of each face
    std::vector<tinyobj::material_t> materials;
    Reader reader;
    std::string messages, error;
};

bool space(char c) { return c == ' ' || c == '\t'; }

// The text with a group before every face; the lines as the loader counts them.
std::string grouped(const std::string &text, std::vector<uint64_t> *lines) {
    std::string out;
    size_t at = 0;
    uint64_t line = 0;
    while (at < text.size()) {
        size_t end = at;
        while (end < text.size() && text[end] != '\n' && text[end] != '\r') end++;
        line++;
        size_t first = at;
        while (first < end && space(text[first])) first++;
        if (first + 1 < end && text[first] == 'f' && space(text[first + 1])) {
            lines->push_back(line);
            out += "s " + std::to_string(lines->size()) + " \n";
        }
        out.append(text, at, end - at);
        out += '\n';
        if (end + 1 < text.size() && text[end] == '\r' && text[end + 1] == '\n') end++;
        at = end + 1;
    }
    return out;
}

void read(Drawing *drawing, const std::string &text, const std::string &folder) {
    tinyobj::attrib_t attributes;
    std::vector<tinyobj::shape_t> shapes;
    std::string warn;
    drawing->reader.folder = folder;
    {
        std::istringstream in(text);
        if (!tinyobj::LoadObj(&attributes, &shapes, &drawing->materials, &warn, &drawing->error, &in, &drawing->reader, false, false)) {
            if (drawing->error.empty()) drawing->error = "the drawing cannot be read";
            drawing->messages = warn;
            return;
        }
        drawing->messages = warn;
    }
    drawing->points.assign(attributes.vertices.begin(), attributes.vertices.end());
    const std::string with_groups = grouped(text, &drawing->lines);
    for (int triangulate = 0; triangulate < 2; triangulate++) {
        Reader again;
        again.folder = folder;
        std::vector<tinyobj::material_t> materials;
        std::string unused_warn, unused_err;
        std::istringstream in(with_groups);
        shapes.clear();
        if (!tinyobj::LoadObj(&attributes, &shapes, &materials, &unused_warn, &unused_err, &in, &again, triangulate == 1, false)) {
            drawing->error = "the drawing cannot be read";
            return;
        }
        const int64_t count = int64_t(drawing->points.size() / 3);
        bool beyond = false;
        for (const tinyobj::shape_t &shape : shapes) {
            const tinyobj::mesh_t &mesh = shape.mesh;
            size_t at = 0;
            for (size_t f = 0; f < mesh.num_face_vertices.size(); f++) {
                const size_t corners = mesh.num_face_vertices[f];
                const int64_t face = mesh.smoothing_group_ids[f];
                if (triangulate) {
                    for (size_t k = 0; k < 3; k++) drawing->triangles.push_back(mesh.indices[at + k].vertex_index);
                    drawing->triangles.push_back(mesh.material_ids[f]);
                    drawing->triangles.push_back(face);
                } else {
                    for (size_t k = 0; k < corners; k++) {
                        const int64_t index = mesh.indices[at + k].vertex_index;
                        beyond = beyond || index < 0 || index >= count;
                        drawing->corners.push_back(face);
                        drawing->corners.push_back(index);
                    }
                }
                at += corners;
            }
        }
        if (beyond) return;  // no triangles of points that are not there
    }
}

}  // namespace

extern "C" {

struct PlateList {
    const void *start;
    size_t length;
};

struct PlateMaterial {
    PlateList name;
    double base[3], emissive[3], dissolve;
};

Drawing *plate_obj_read(const char *bytes, size_t length, const char *folder) {
    Drawing *drawing = new (std::nothrow) Drawing;
    if (!drawing) return nullptr;
    try {
        read(drawing, std::string(bytes, length), folder);
    } catch (const std::exception &e) {
        drawing->error = std::string("the drawing cannot be read: ") + e.what();
    } catch (...) {
        drawing->error = "the drawing cannot be read";
    }
    return drawing;
}

void plate_obj_free(Drawing *drawing) { delete drawing; }

PlateList plate_obj_points(const Drawing *d) { return {d->points.data(), d->points.size()}; }
PlateList plate_obj_triangles(const Drawing *d) { return {d->triangles.data(), d->triangles.size()}; }
PlateList plate_obj_corners(const Drawing *d) { return {d->corners.data(), d->corners.size()}; }
PlateList plate_obj_lines(const Drawing *d) { return {d->lines.data(), d->lines.size()}; }
PlateList plate_obj_messages(const Drawing *d) { return {d->messages.data(), d->messages.size()}; }
PlateList plate_obj_error(const Drawing *d) { return {d->error.data(), d->error.size()}; }
size_t plate_obj_materials(const Drawing *d) { return d->materials.size(); }
PlateMaterial plate_obj_material(const Drawing *d, size_t i) {
    const tinyobj::material_t &m = d->materials[i];
    PlateMaterial out;
    out.name = {m.name.data(), m.name.size()};
    for (int c = 0; c < 3; c++) out.base[c] = m.diffuse[c], out.emissive[c] = m.emission[c];
    out.dissolve = m.dissolve;
    return out;
}
size_t plate_obj_files(const Drawing *d) { return d->reader.read.size(); }
PlateList plate_obj_file_name(const Drawing *d, size_t i) { return {d->reader.read[i].name.data(), d->reader.read[i].name.size()}; }
PlateList plate_obj_file_bytes(const Drawing *d, size_t i) { return {d->reader.read[i].bytes.data(), d->reader.read[i].bytes.size()}; }
size_t plate_obj_missing(const Drawing *d) { return d->reader.missing.size(); }
PlateList plate_obj_missing_name(const Drawing *d, size_t i) { return {d->reader.missing[i].data(), d->reader.missing[i].size()}; }
}
