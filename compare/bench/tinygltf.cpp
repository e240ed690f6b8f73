// The tinygltf side of the benchmarks: load a file from memory, read a component of a loaded model.
#define TINYGLTF_IMPLEMENTATION
#define TINYGLTF_NO_STB_IMAGE
#define TINYGLTF_NO_STB_IMAGE_WRITE
#define TINYGLTF_NO_EXTERNAL_IMAGE
#include <tiny_gltf.h>
#include <cstdint>

// Images are left alone, as the library leaves them.
static bool no_image(tinygltf::Image *, const int, std::string *, std::string *, int, int, const unsigned char *, int, void *) {
    return true;
}

static bool load(tinygltf::Model *model, const uint8_t *file, size_t length) {
    tinygltf::TinyGLTF loader;
    std::string error, warning;
    loader.SetImageLoader(no_image, nullptr);
    return loader.LoadBinaryFromMemory(model, &error, &warning, file, length);
}

extern "C" uint32_t tiny_load(const uint8_t *file, size_t length) {
    tinygltf::Model model;
    return load(&model, file, length);
}

// The model stays until the program ends; null where the file is refused.
extern "C" void *tiny_open(const uint8_t *file, size_t length) {
    auto *model = new tinygltf::Model;
    return load(model, file, length) ? model : nullptr;
}

// A component of 5126, as its bits. Sparse entries are not looked at: tinygltf leaves them to its user.
extern "C" int64_t tiny_component(const void *handle, uint32_t accessor, uint32_t element, uint32_t component) {
    const auto &model = *static_cast<const tinygltf::Model *>(handle);
    const auto &a = model.accessors.at(accessor);
    const auto &view = model.bufferViews.at(a.bufferView);
    size_t at = view.byteOffset + a.byteOffset + a.ByteStride(view) * size_t(element) + 4 * size_t(component);
    const auto &data = model.buffers.at(view.buffer).data;
    if (at + 4 > data.size()) return 0;
    uint32_t bits;
    memcpy(&bits, data.data() + at, 4);
    return bits;
}
