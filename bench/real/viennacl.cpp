// Builds the programs of ViennaCL for `float`, in rows.
#define CL_TARGET_OPENCL_VERSION 120
#define VIENNACL_WITH_OPENCL
#include "viennacl/ocl/backend.hpp"
#include "viennacl/linalg/opencl/kernels/amg.hpp"
#include "viennacl/linalg/opencl/kernels/compressed_matrix.hpp"
#include "viennacl/linalg/opencl/kernels/coordinate_matrix.hpp"
#include "viennacl/linalg/opencl/kernels/ell_matrix.hpp"
#include "viennacl/linalg/opencl/kernels/fft.hpp"
#include "viennacl/linalg/opencl/kernels/hyb_matrix.hpp"
#include "viennacl/linalg/opencl/kernels/ilu.hpp"
#include "viennacl/linalg/opencl/kernels/iterative.hpp"
#include "viennacl/linalg/opencl/kernels/matrix.hpp"
#include "viennacl/linalg/opencl/kernels/matrix_solve.hpp"
#include "viennacl/linalg/opencl/kernels/nmf.hpp"
#include "viennacl/linalg/opencl/kernels/scalar.hpp"
#include "viennacl/linalg/opencl/kernels/scan.hpp"
#include "viennacl/linalg/opencl/kernels/sliced_ell_matrix.hpp"
#include "viennacl/linalg/opencl/kernels/spai.hpp"
#include "viennacl/linalg/opencl/kernels/svd.hpp"
#include "viennacl/linalg/opencl/kernels/vector.hpp"
#include "viennacl/linalg/opencl/kernels/vector_element.hpp"
#include <cstdio>

namespace kernels = viennacl::linalg::opencl::kernels;
using viennacl::row_major;

template <class Programs> static void build(const char *name) {
    try {
        Programs::init(viennacl::ocl::current_context());
    } catch (const std::exception &fault) {
        std::fprintf(stderr, "%s: %.200s\n", name, fault.what());
    }
}

int main() {
    build<kernels::amg<float>>("amg");
    build<kernels::compressed_matrix<float>>("compressed_matrix");
    build<kernels::coordinate_matrix<float>>("coordinate_matrix");
    build<kernels::ell_matrix<float>>("ell_matrix");
    build<kernels::fft<float>>("fft");
    build<kernels::hyb_matrix<float>>("hyb_matrix");
    build<kernels::ilu<float>>("ilu");
    build<kernels::iterative<float>>("iterative");
    build<kernels::matrix<float, row_major>>("matrix");
    build<kernels::matrix_solve<float, row_major, row_major>>("matrix_solve");
    build<kernels::nmf<float>>("nmf");
    build<kernels::scalar<float>>("scalar");
    build<kernels::scan<float>>("scan");
    build<kernels::sliced_ell_matrix<float, unsigned int>>("sliced_ell_matrix");
    build<kernels::spai<float>>("spai");
    build<kernels::svd<float, row_major>>("svd");
    build<kernels::vector<float>>("vector");
    build<kernels::vector_element<float>>("vector_element");
    return 0;
}
