# The library as the target mcs::mcs, found from where this file stands: PREFIX/lib/cmake/mcs.
if(NOT TARGET mcs::mcs)
    get_filename_component(mcs_prefix "${CMAKE_CURRENT_LIST_DIR}/../../.." ABSOLUTE)
    add_library(mcs::mcs STATIC IMPORTED)
    set_target_properties(mcs::mcs PROPERTIES
        IMPORTED_LOCATION "${mcs_prefix}/lib/libmcs.a"
        IMPORTED_LINK_INTERFACE_LANGUAGES C
        INTERFACE_INCLUDE_DIRECTORIES "${mcs_prefix}/include")
    unset(mcs_prefix)
endif()
