// Calls algorithms of Boost.Compute, so that each builds its programs. Nothing is run, so what they give means nothing.
#define CL_TARGET_OPENCL_VERSION 120
#define CL_USE_DEPRECATED_OPENCL_1_1_APIS
#include <boost/compute.hpp>
#include <csetjmp>
#include <csignal>
#include <cstdio>
#include <unistd.h>
#include <vector>

namespace compute = boost::compute;
using compute::lambda::_1;
using compute::lambda::_2;

static sigjmp_buf behind;
static void give_up(int) { siglongjmp(behind, 1); }

// An algorithm that waits for what a device would compute is left after two seconds.
template <class Call> static void attempt(const char *name, Call call) {
    if (sigsetjmp(behind, 1)) {
        std::fprintf(stderr, "%s: left\n", name);
        return;
    }
    alarm(2);
    try {
        call();
    } catch (const std::exception &fault) {
        std::fprintf(stderr, "%s: %.200s\n", name, fault.what());
    }
    alarm(0);
}
#define CALL(...) attempt(#__VA_ARGS__, [&] { __VA_ARGS__; })

int main() {
    std::signal(SIGALRM, give_up);
    std::signal(SIGSEGV, give_up);
    auto &queue = compute::system::default_queue();
    auto context = queue.get_context();
    const int n = 10000;
    std::vector<int> host(n);
    for (int i = 0; i < n; i++) host[i] = (i * 7919) % 1000;
    compute::vector<int> a(host.begin(), host.end(), queue), b(n, context), d(n, context);
    compute::vector<float> x(n, context), y(n, context);
    int whole = 0;
    float real = 0;
    CALL(compute::fill(b.begin(), b.end(), 3, queue));
    CALL(compute::iota(b.begin(), b.end(), 0, queue));
    CALL(compute::copy(a.begin(), a.end(), x.begin(), queue));
    CALL(compute::transform(a.begin(), a.end(), b.begin(), compute::abs<int>(), queue));
    CALL(compute::transform(x.begin(), x.end(), y.begin(), compute::sqrt<float>(), queue));
    CALL(compute::transform(a.begin(), a.end(), b.begin(), d.begin(), compute::plus<int>(), queue));
    CALL(compute::reduce(a.begin(), a.end(), &whole, compute::plus<int>(), queue));
    CALL(compute::reduce(x.begin(), x.end(), &real, compute::max<float>(), queue));
    CALL(compute::accumulate(x.begin(), x.end(), 0.0f, queue));
    CALL(compute::exclusive_scan(a.begin(), a.end(), b.begin(), queue));
    CALL(compute::inclusive_scan(x.begin(), x.end(), y.begin(), queue));
    CALL(compute::count_if(a.begin(), a.end(), _1 > 5, queue));
    CALL(compute::copy_if(a.begin(), a.end(), b.begin(), _1 > 5, queue));
    CALL(compute::find(a.begin(), a.end(), 7, queue));
    CALL(compute::max_element(a.begin(), a.end(), queue));
    CALL(compute::min_element(x.begin(), x.end(), queue));
    CALL(compute::reverse(a.begin(), a.end(), queue));
    CALL(compute::rotate_copy(a.begin(), a.begin() + 10, a.end(), b.begin(), queue));
    CALL(compute::sort(a.begin(), a.end(), queue));
    CALL(compute::sort(x.begin(), x.end(), queue));
    CALL(compute::sort_by_key(a.begin(), a.end(), b.begin(), queue));
    CALL(compute::stable_sort(a.begin(), a.end(), compute::greater<int>(), queue));
    CALL(compute::sort(a.begin(), a.end(), _1 < _2 * 2, queue));
    CALL(compute::unique(a.begin(), a.end(), queue));
    CALL(compute::partition(a.begin(), a.end(), _1 > 3, queue));
    CALL(compute::inner_product(a.begin(), a.end(), b.begin(), 0, queue));
    CALL(compute::adjacent_difference(a.begin(), a.end(), b.begin(), queue));
    CALL(compute::gather(a.begin(), a.end(), b.begin(), d.begin(), queue));
    CALL(compute::scatter(a.begin(), a.end(), b.begin(), d.begin(), queue));
    CALL(compute::lower_bound(a.begin(), a.end(), 5, queue));
    CALL(compute::binary_search(a.begin(), a.end(), 5, queue));
    CALL(compute::merge(a.begin(), a.begin() + 100, b.begin(), b.begin() + 100, d.begin(), queue));
    CALL(compute::set_union(a.begin(), a.begin() + 100, b.begin(), b.begin() + 100, d.begin(), queue));
    CALL(compute::includes(a.begin(), a.end(), b.begin(), b.end(), queue));
    CALL(compute::equal(a.begin(), a.end(), b.begin(), queue));
    CALL(compute::next_permutation(a.begin(), a.end(), queue));
    CALL(compute::is_sorted(a.begin(), a.end(), queue));
    CALL(compute::search(a.begin(), a.end(), b.begin(), b.begin() + 4, queue));
    CALL(compute::transform_reduce(a.begin(), a.end(), &whole, compute::abs<int>(), compute::plus<int>(), queue));
    CALL(compute::replace(a.begin(), a.end(), 1, 2, queue));
    CALL(compute::swap_ranges(a.begin(), a.end(), b.begin(), queue));
    CALL(compute::reduce_by_key(a.begin(), a.end(), b.begin(), d.begin(), d.begin(), queue));
    CALL(compute::for_each_n(a.begin(), 100, compute::abs<int>(), queue));
    CALL(compute::remove(a.begin(), a.end(), 4, queue));
    CALL(compute::mismatch(a.begin(), a.end(), b.begin(), queue));
    CALL(compute::adjacent_find(a.begin(), a.end(), queue));
    CALL(compute::partial_sum(a.begin(), a.end(), b.begin(), queue));
    compute::vector<compute::uint_> words(n, context);
    CALL(compute::mersenne_twister_engine<compute::uint_>(queue).generate(words.begin(), words.end(), queue));
    CALL(compute::linear_congruential_engine<compute::uint_>(queue).generate(words.begin(), words.end(), queue));
    std::_Exit(0);
}
