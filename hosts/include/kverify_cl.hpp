// kverify_cl.hpp: kverify_cl.h for C++ 17. Header only. What is refused is thrown, as `kverify::refused`; an error of OpenCL is
// `kverify::opencl_error`.
#ifndef KVERIFY_CL_HPP
#define KVERIFY_CL_HPP
#include <algorithm>
#include "kverify.hpp"
#include "kverify_cl.h"

namespace kverify {

struct opencl_error : std::runtime_error {
    cl_int number;
    opencl_error(cl_int error, const std::string &text) : std::runtime_error(text), number(error) {}
};

// A kernel that is accepted and built, with its arguments. For one thread at a time, as a cl_kernel.
class launcher {
    kv_cl k_;

    std::string log() const {
        if (!k_.program) return "";
        cl_device_id device = nullptr;
        size_t n = 0;
        clGetProgramInfo(k_.program, CL_PROGRAM_DEVICES, sizeof device, &device, nullptr);
        clGetProgramBuildInfo(k_.program, device, CL_PROGRAM_BUILD_LOG, 0, nullptr, &n);
        std::string text(n, '\0');
        clGetProgramBuildInfo(k_.program, device, CL_PROGRAM_BUILD_LOG, n, text.data(), nullptr);
        return text.c_str();
    }

    // Throws what a call answers.
    void need(cl_int error) const {
        if (error == CL_OUT_OF_HOST_MEMORY) throw std::bad_alloc();
        if (error < 0) throw opencl_error(error, "OpenCL error " + std::to_string(error) + " " + log());
        if (error > 0) throw_if(k_.answer, words_of(k_.answer));
    }

  public:
    launcher(cl_context context, cl_device_id device, const texts &t, uint32_t options = 0) {
        cl_int error = kv_cl_open(&k_, context, device, data_of(t.kernel), t.kernel.size(), data_of(t.conditions), t.conditions.size(),
                                  data_of(t.certificate), t.certificate.size(), options);
        try {
            if (error > 0) throw_if(k_.answer, k_.answer.number == KV_MEMORY ? "" : explain(t, options & KV_BITS32));
            need(error);
        } catch (...) {
            kv_cl_close(&k_);
            throw;
        }
    }
    launcher(const launcher &) = delete;
    launcher &operator=(const launcher &) = delete;
    ~launcher() { kv_cl_close(&k_); }

    // A value, by its bytes: of the type that the parameter has, or a cl_float4 and the like for a vector.
    template <class T>
    void value(cl_uint index, const T &given) {
        static_assert(std::is_trivially_copyable_v<T> && !std::is_pointer_v<T>);
        need(kv_cl_value(&k_, index, &given, sizeof given));
    }
    void buffer(cl_uint index, cl_mem memory) { need(kv_cl_buffer(&k_, index, memory)); }
    void local(cl_uint index, size_t bytes) { need(kv_cl_local(&k_, index, bytes)); }

    // Enqueues where the launch is allowed. `held`: the host answers for what `values` lines say of its buffers.
    void enqueue(cl_command_queue queue, std::initializer_list<size_t> global, std::initializer_list<size_t> local, bool held = false,
                 const std::vector<cl_event> &events = {}, cl_event *event = nullptr) {
        if (global.size() != local.size()) throw std::invalid_argument("as many local sizes as global ones");
        need(kv_cl_enqueue(&k_, queue, static_cast<cl_uint>(global.size()), nullptr, global.begin(), local.begin(), held ? KV_HELD : 0u,
                           static_cast<cl_uint>(events.size()), events.empty() ? nullptr : events.data(), event));
    }
};

}  // namespace kverify
#endif
