# find_package(kverify): the targets kverify::kverify (the static library with its header files) and kverify::shared (the shared one, where
# it was laid down), the program KVERIFY_PROGRAM, and kverify_add_kernels. This file lies in PREFIX/lib/cmake/kverify; nothing outside
# PREFIX is looked up.
get_filename_component(_kverify_prefix "${CMAKE_CURRENT_LIST_DIR}/../../.." ABSOLUTE)
set(KVERIFY_PROGRAM "${_kverify_prefix}/bin/kverify" CACHE INTERNAL "the program kverify")
set(KVERIFY_SHARE "${_kverify_prefix}/share/kverify" CACHE INTERNAL "the scripts of kverify")

if(NOT TARGET kverify::kverify)
  add_library(kverify::kverify STATIC IMPORTED)
  set_target_properties(kverify::kverify PROPERTIES
    IMPORTED_LOCATION "${_kverify_prefix}/lib/libkverify.a"
    INTERFACE_INCLUDE_DIRECTORIES "${_kverify_prefix}/include")
endif()
if(NOT TARGET kverify::shared AND EXISTS "${_kverify_prefix}/lib/libkverify.so.1")
  add_library(kverify::shared SHARED IMPORTED)
  set_target_properties(kverify::shared PROPERTIES
    IMPORTED_LOCATION "${_kverify_prefix}/lib/libkverify.so.1"
    IMPORTED_SONAME libkverify.so.1
    INTERFACE_INCLUDE_DIRECTORIES "${_kverify_prefix}/include")
endif()

# Whether what was laid down is proved is said once.
file(STRINGS "${KVERIFY_SHARE}/version" _kverify_proved REGEX "^The (program|library) is ")
list(TRANSFORM _kverify_proved REPLACE "^The (.*)\\.$" "the \\1")
list(JOIN _kverify_proved ", " _kverify_proved)
if(NOT kverify_FIND_QUIETLY)
  message(STATUS "kverify: ${_kverify_proved}")
endif()

# kverify_add_kernels(TARGET FILES file.cl .. [CONDITIONS text.conditions ..] [OPTIONS word ..])
#
# A kernel is one text of conditions with its file: the first of CONDITIONS goes with the first of FILES, and so on; a file with several
# kernels stands there several times. Without CONDITIONS they are the files with the ending .conditions beside each of FILES. OPTIONS are
# words for `kverify prove`, such as --devices 32.
#
# Each kernel gets a certificate by a build step of its own, so that make and ninja prove them side by side. The build fails with the text
# of `kverify explain` where there is none. A .certificate beside the conditions is taken where it still shows the kernel, so that nothing
# is searched. The three texts become data of TARGET; the header file TARGET_kernels.h names them by the conditions' file: of
# blur.conditions KV_KERNEL(blur) is the six parameters of kv_open and, in C++, KV_TEXTS(blur) a kverify::texts.
function(kverify_add_kernels target)
  cmake_parse_arguments(PARSE_ARGV 1 KV "" "" "FILES;CONDITIONS;OPTIONS")
  if(NOT KV_FILES OR KV_UNPARSED_ARGUMENTS)
    message(FATAL_ERROR "kverify_add_kernels(TARGET FILES file.cl .. [CONDITIONS text.conditions ..] [OPTIONS word ..])")
  endif()
  if(NOT KV_CONDITIONS)
    list(TRANSFORM KV_FILES REPLACE "\\.[^./]*$" ".conditions" OUTPUT_VARIABLE KV_CONDITIONS)
  endif()
  list(LENGTH KV_FILES count)
  list(LENGTH KV_CONDITIONS of_conditions)
  if(NOT count EQUAL of_conditions)
    message(FATAL_ERROR "kverify_add_kernels: ${count} FILES and ${of_conditions} CONDITIONS")
  endif()
  set(folder "${CMAKE_CURRENT_BINARY_DIR}/${target}_kernels")
  file(MAKE_DIRECTORY "${folder}")
  set(texts)
  foreach(file conditions IN ZIP_LISTS KV_FILES KV_CONDITIONS)
    get_filename_component(file "${file}" ABSOLUTE)
    get_filename_component(conditions "${conditions}" ABSOLUTE)
    get_filename_component(name "${conditions}" NAME_WLE)
    string(MAKE_C_IDENTIFIER "${name}" name)
    set(certificate "${folder}/${name}.certificate")
    string(REGEX REPLACE "\\.[^./]*$" ".certificate" brought "${conditions}")
    if(NOT EXISTS "${brought}")
      set(brought)
    endif()
    add_custom_command(
      OUTPUT "${certificate}"
      COMMAND sh "${KVERIFY_SHARE}/prove.sh" "${KVERIFY_PROGRAM}" "${file}" "${conditions}" "${certificate}" "${brought}" ${KV_OPTIONS}
      DEPENDS "${file}" "${conditions}" ${brought} "${KVERIFY_SHARE}/prove.sh" "${KVERIFY_SHARE}/../../libexec/kverify"
      COMMENT "kverify prove ${name}"
      VERBATIM)
    list(APPEND texts "${name}" "${file}" "${conditions}" "${certificate}")
  endforeach()
  set(needed ${texts})
  list(FILTER needed INCLUDE REGEX "/")
  list(REMOVE_DUPLICATES needed)
  set(data "${folder}/${target}_kernels")
  add_custom_command(
    OUTPUT "${data}.c" "${data}.h"
    COMMAND sh "${KVERIFY_SHARE}/embed.sh" "${data}.c" "${data}.h" ${texts}
    DEPENDS ${needed} "${KVERIFY_SHARE}/embed.sh"
    COMMENT "kverify texts of ${target}"
    VERBATIM)
  get_property(languages GLOBAL PROPERTY ENABLED_LANGUAGES)
  if(NOT "C" IN_LIST languages)
    set_source_files_properties("${data}.c" PROPERTIES LANGUAGE CXX)
  endif()
  set_source_files_properties("${data}.c" PROPERTIES OBJECT_DEPENDS "${needed}")
  target_sources(${target} PRIVATE "${data}.c" "${data}.h")
  target_include_directories(${target} PRIVATE "${folder}")
endfunction()
