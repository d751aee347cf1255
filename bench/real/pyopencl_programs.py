"""Calls algorithms of PyOpenCL, so that each builds its programs. Nothing is run, so what they give means nothing."""
import sys

import numpy
import pyopencl
import pyopencl.algorithm
import pyopencl.array as arrays
import pyopencl.bitonic_sort
import pyopencl.clmath
import pyopencl.clrandom
import pyopencl.elementwise
import pyopencl.reduction
import pyopencl.scan

pyopencl._DEFAULT_INCLUDE_OPTIONS.clear()
context = pyopencl.create_some_context(interactive=False)
queue = pyopencl.CommandQueue(context)
ints = arrays.to_device(queue, numpy.arange(5000, dtype=numpy.int32))
words = arrays.to_device(queue, numpy.arange(5000, dtype=numpy.uint32))
floats = arrays.to_device(queue, numpy.arange(5000, dtype=numpy.float32))
LIST = "void generate(LIST_ARG_DECL USER_ARG_DECL index_type i) { for (int j = 0; j < i % 4; j++) { APPEND_some(j); } }"
CALLS = [
    lambda: pyopencl.scan.InclusiveScanKernel(context, numpy.int32, "a+b", neutral="0")(ints),
    lambda: pyopencl.scan.ExclusiveScanKernel(context, numpy.int32, "a+b", neutral="0")(ints),
    lambda: pyopencl.reduction.ReductionKernel(context, numpy.float32, "0", "a+b", "x[i]*y[i]",
                                               "__global float *x, __global float *y")(floats, floats),
    lambda: pyopencl.elementwise.ElementwiseKernel(context, "float a, float *x, float *y", "y[i] = a*x[i] + y[i]")(2, floats, floats),
    lambda: arrays.sum(floats), lambda: arrays.max(floats), lambda: arrays.dot(floats, floats), lambda: floats + floats * 2,
    lambda: arrays.take(floats, ints), lambda: floats.astype(numpy.int32), lambda: arrays.arange(queue, 100, dtype=numpy.int32),
    lambda: arrays.zeros(queue, 100, numpy.float32).fill(3), lambda: ints.reverse(), lambda: ints > 3, lambda: floats.real,
    lambda: arrays.if_positive(floats, floats, floats), lambda: arrays.maximum(floats, floats), lambda: ints[::2] + 1,
    lambda: pyopencl.clmath.sin(floats), lambda: pyopencl.clrandom.rand(queue, 1000, numpy.float32),
    lambda: pyopencl.algorithm.copy_if(ints, "ary[i]>5"), lambda: pyopencl.algorithm.partition(ints, "ary[i]>5"),
    lambda: pyopencl.algorithm.unique(ints),
    lambda: pyopencl.algorithm.RadixSort(context, "uint *ary", key_expr="ary[i]", sort_arg_names=["ary"])(words),
    lambda: pyopencl.algorithm.ListOfListsBuilder(context, [("some", numpy.int32)], LIST, arg_decls=[])(queue, 2000),
    lambda: pyopencl.algorithm.KeyValueSorter(context)(queue, ints, ints, 10, numpy.int32),
    lambda: pyopencl.bitonic_sort.BitonicSort(context)(floats[:4096]),
]
for number, call in enumerate(CALLS):
    try:
        call()
    except Exception as fault:  # each is tried by itself
        print(f"{number}: {str(fault)[:200]}", file=sys.stderr)
