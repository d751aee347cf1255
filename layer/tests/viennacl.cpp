// A program over ViennaCL, as one would write it without the layer: vectors, a dense matrix, conjugate gradients.
#define VIENNACL_WITH_OPENCL
#include <viennacl/compressed_matrix.hpp>
#include <viennacl/linalg/cg.hpp>
#include <viennacl/linalg/inner_prod.hpp>
#include <viennacl/linalg/norm_2.hpp>
#include <viennacl/linalg/prod.hpp>
#include <viennacl/matrix.hpp>
#include <viennacl/vector.hpp>
#include <cmath>
#include <iostream>
#include <map>
#include <vector>

int main() {
    const size_t n = 200;
    std::vector<float> host(n);
    for (size_t at = 0; at < n; at++) host[at] = static_cast<float>(at % 7) + 1;
    viennacl::vector<float> x(n), y(n);
    viennacl::copy(host, x);
    y = 2.0f * x;
    y += x;
    float product = viennacl::linalg::inner_prod(x, y), length = viennacl::linalg::norm_2(x);
    viennacl::matrix<float> a(n, n);
    std::vector<std::vector<float>> rows(n, std::vector<float>(n, 0.5f));
    viennacl::copy(rows, a);
    viennacl::vector<float> z = viennacl::linalg::prod(a, x);
    viennacl::matrix<float> b = viennacl::linalg::prod(a, a);
    std::vector<std::map<unsigned, float>> sparse(n);
    for (unsigned at = 0; at < n; at++) {
        sparse[at][at] = 4;
        if (at) sparse[at][at - 1] = -1;
        if (at + 1 < n) sparse[at][at + 1] = -1;
    }
    viennacl::compressed_matrix<float> s(n, n);
    viennacl::copy(sparse, s);
    viennacl::vector<float> solved = viennacl::linalg::solve(s, x, viennacl::linalg::cg_tag(1e-5, 100));
    viennacl::vector<float> back = viennacl::linalg::prod(s, solved);
    back -= x;
    float off = viennacl::linalg::norm_2(back);
    std::cout << "product " << product << ", length " << length << ", z[0] " << z[0] << ", b[0] " << b(0, 0) << ", off " << off
              << std::endl;
    return std::fabs(product - 3 * length * length) < 1e-2f * product && off < 1e-2f ? 0 : 1;
}
