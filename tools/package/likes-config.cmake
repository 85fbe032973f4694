# likes::likes is the shared library and likes::static the static one, each with its headers and with threads.
include(CMakeFindDependencyMacro)
find_dependency(Threads)

if(NOT TARGET likes::likes)
  get_filename_component(likes_PREFIX "${CMAKE_CURRENT_LIST_DIR}/../../.." ABSOLUTE)
  add_library(likes::likes SHARED IMPORTED)
  set_target_properties(likes::likes PROPERTIES
    IMPORTED_LOCATION "${likes_PREFIX}/lib/liblikes.so.@VERSION@"
    IMPORTED_SONAME "@SONAME@")
  add_library(likes::static STATIC IMPORTED)
  set_target_properties(likes::static PROPERTIES IMPORTED_LOCATION "${likes_PREFIX}/lib/liblikes.a")
  set_target_properties(likes::likes likes::static PROPERTIES
    INTERFACE_INCLUDE_DIRECTORIES "${likes_PREFIX}/include"
    INTERFACE_LINK_LIBRARIES Threads::Threads)
  unset(likes_PREFIX)
endif()
