# The targets cfi::cfi, the shared library, and cfi::static, the same as an archive; both with the folder of cfi_c.h.
get_filename_component(cfi_prefix "${CMAKE_CURRENT_LIST_DIR}/@UP@" ABSOLUTE)
if(NOT TARGET cfi::cfi)
    add_library(cfi::cfi SHARED IMPORTED)
    set_target_properties(cfi::cfi PROPERTIES
        IMPORTED_LOCATION "${cfi_prefix}/@LIB@/libcfi.so"
        IMPORTED_SONAME libcfi.so.0
        INTERFACE_INCLUDE_DIRECTORIES "${cfi_prefix}/include")
    add_library(cfi::static STATIC IMPORTED)
    set_target_properties(cfi::static PROPERTIES
        IMPORTED_LOCATION "${cfi_prefix}/@LIB@/libcfi.a"
        INTERFACE_INCLUDE_DIRECTORIES "${cfi_prefix}/include")
endif()
unset(cfi_prefix)
