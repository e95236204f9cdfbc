# The shared library is mtrecover::mtrecover, the static one mtrecover::static.
get_filename_component(mtrecover_prefix "${CMAKE_CURRENT_LIST_DIR}/../@UP@" ABSOLUTE)
if(NOT TARGET mtrecover::mtrecover)
  add_library(mtrecover::mtrecover SHARED IMPORTED)
  set_target_properties(mtrecover::mtrecover PROPERTIES
    IMPORTED_LOCATION "${mtrecover_prefix}/@LIB@/libmtrecover.so.1"
    IMPORTED_SONAME libmtrecover.so.1
    INTERFACE_INCLUDE_DIRECTORIES "${mtrecover_prefix}/include")
  add_library(mtrecover::static STATIC IMPORTED)
  set_target_properties(mtrecover::static PROPERTIES
    IMPORTED_LOCATION "${mtrecover_prefix}/@LIB@/libmtrecover.a"
    INTERFACE_INCLUDE_DIRECTORIES "${mtrecover_prefix}/include")
endif()
