// A program over Boost.Compute, as one would write it without the layer: sort, reduce, transform, a kernel of its own.
#define BOOST_COMPUTE_USE_OFFLINE_CACHE_NO
#define CL_TARGET_OPENCL_VERSION 120
#include <boost/compute.hpp>
#include <iostream>
#include <numeric>
#include <vector>

namespace compute = boost::compute;

int main() {
    compute::device device = compute::system::default_device();
    compute::context context(device);
    compute::command_queue queue(context, device);
    std::vector<int> host(1000);
    for (size_t at = 0; at < host.size(); at++) host[at] = static_cast<int>((at * 7919) % 1000);
    compute::vector<int> numbers(host.begin(), host.end(), queue);
    compute::vector<int> doubled(numbers.size(), context);
    int total = 0;
    compute::reduce(numbers.begin(), numbers.end(), &total, compute::plus<int>(), queue);
    compute::transform(numbers.begin(), numbers.end(), doubled.begin(), compute::_1 * 2, queue);
    compute::sort(numbers.begin(), numbers.end(), queue);
    std::vector<int> sums(numbers.size());
    compute::vector<int> scanned(numbers.size(), context);
    compute::inclusive_scan(numbers.begin(), numbers.end(), scanned.begin(), queue);
    compute::copy(scanned.begin(), scanned.end(), sums.begin(), queue);
    compute::fill(doubled.begin(), doubled.end(), 3, queue);
    compute::iota(doubled.begin(), doubled.end(), 0, queue);
    auto most = compute::max_element(numbers.begin(), numbers.end(), queue);
    size_t count = compute::count(numbers.begin(), numbers.end(), 7, queue);
    compute::reverse(numbers.begin(), numbers.end(), queue);
    compute::copy(numbers.begin(), numbers.end(), host.begin(), queue);
    queue.finish();
    bool is_sorted = std::is_sorted(host.rbegin(), host.rend());
    std::cout << "sum " << total << ", sorted " << is_sorted << ", last sum " << sums.back() << ", most at " << most - numbers.begin()
              << ", sevens " << count << std::endl;
    return total == 499500 && is_sorted && sums.back() == 499500 && count == 1 ? 0 : 1;
}
