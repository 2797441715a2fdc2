# While the first number is 0, a change of the second may change calls.
set(PACKAGE_VERSION "@VERSION@")
string(REGEX MATCH "^[0-9]+[.][0-9]+" cfi_here "${PACKAGE_VERSION}")
string(REGEX MATCH "^[0-9]+[.][0-9]+" cfi_wanted "${PACKAGE_FIND_VERSION}")
if(PACKAGE_VERSION VERSION_LESS PACKAGE_FIND_VERSION
   OR (cfi_wanted AND NOT cfi_wanted STREQUAL cfi_here)
   OR (CMAKE_SIZEOF_VOID_P AND NOT CMAKE_SIZEOF_VOID_P EQUAL 8))
    set(PACKAGE_VERSION_COMPATIBLE FALSE)
else()
    set(PACKAGE_VERSION_COMPATIBLE TRUE)
    if(PACKAGE_VERSION VERSION_EQUAL PACKAGE_FIND_VERSION)
        set(PACKAGE_VERSION_EXACT TRUE)
    endif()
endif()
